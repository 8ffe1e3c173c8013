// Stands for Chromium's header of this name: what is logged is dropped.
#pragma once

struct DroppedLog {
    template <typename T>
    const DroppedLog &operator<<(const T &) const {
        return *this;
    }
};

#define LOG(severity) DroppedLog()
#define NOTREACHED() DroppedLog()
