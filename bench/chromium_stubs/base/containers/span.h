// Stands for Chromium's header of this name: a span is the standard library's.
// As there, it brings the checks along.
#pragma once

#include <span>

#include "base/check.h"

namespace base {
using std::span;
}  // namespace base
