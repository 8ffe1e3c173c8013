// Stands for Chromium's header of this name: a pointer that counts nothing.
#pragma once

template <typename T>
class raw_ptr {
  public:
    raw_ptr(T *pointer) : pointer(pointer) {}

    T *get() const { return pointer; }
    T *operator->() const { return pointer; }
    operator T *() const { return pointer; }

  private:
    T *pointer;
};
