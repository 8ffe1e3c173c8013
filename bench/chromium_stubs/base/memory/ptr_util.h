// Stands for Chromium's header of this name, of which nothing is used.
#pragma once
