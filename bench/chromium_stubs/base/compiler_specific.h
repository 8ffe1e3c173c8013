// Stands for Chromium's header of this name.
#pragma once

#define UNSAFE_TODO(...) __VA_ARGS__
