/* The messages of hid-core, as shim.c keeps them. */
#ifndef HID_CORE_SAID_H
#define HID_CORE_SAID_H

#include "shim.h"

struct said {
    enum said_kind kind;
    /* How many items had been begun when it was said. */
    unsigned int item;
    char text[128];
};

extern struct said *said;
extern size_t said_count;

#endif
