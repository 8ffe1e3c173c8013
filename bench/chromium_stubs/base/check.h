// Stands for Chromium's header of this name, as in a build for release: what only a debug build
// tests isn't looked at.
#pragma once

#include "base/logging.h"

#define DCHECK(condition) static_cast<void>(sizeof(!(condition)))
#define DCHECK_EQ(left, right) DCHECK((left) == (right))
#define DCHECK_LE(left, right) DCHECK((left) <= (right))
