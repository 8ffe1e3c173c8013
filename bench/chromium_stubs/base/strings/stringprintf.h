// Stands for Chromium's header of this name: the text is only for the log, which is dropped.
#pragma once

namespace base {

template <typename... T>
const char *StringPrintf(const char *format, T...) {
    return format;
}

}  // namespace base
