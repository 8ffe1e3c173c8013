/* Stands before Wine's main.c: each of its two walks over the items ends in a switch over the item at `ptr`
 * with `size` bytes of data, which tells where it is. */
#ifndef HIDPARSE_HOOK_H
#define HIDPARSE_HOOK_H

#include "shim.h"

#define switch(item)            \
    shim_begin_item(ptr, size); \
    switch (item)

#endif
