// Stands for Chromium's header of this name: a reference that counts nothing.
#pragma once

template <typename T>
class raw_ref {
  public:
    explicit raw_ref(T &referent) : pointer(&referent) {}

    T &operator*() const { return *pointer; }
    T *operator->() const { return pointer; }

  private:
    T *pointer;
};

template <typename T>
raw_ref<T> ToRawRef(T &referent) {
    return raw_ref<T>(referent);
}
