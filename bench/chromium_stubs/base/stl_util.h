// Stands for Chromium's header of this name.
#pragma once

namespace base {

template <typename T>
void STLClearObject(T *object) {
    T().swap(*object);
}

}  // namespace base
