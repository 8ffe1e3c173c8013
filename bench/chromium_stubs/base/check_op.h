// Stands for Chromium's header of this name.
#pragma once

#include "base/check.h"
