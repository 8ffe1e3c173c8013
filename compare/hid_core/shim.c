/* Memory, messages and the count of items, for the functions of hid-core (shim.h). */
#include "shim.h"
#include "said.h"
#include <stdarg.h>
#include <stdio.h>

unsigned int shim_items, shim_offset;
struct said *said;
size_t said_count;

void shim_begin_item(const u8 *start)
{
    static const u8 *first;
    if (!shim_items++)
        first = start;
    shim_offset = (unsigned int)(start - first);
}

void *shim_memory(void *old, size_t size)
{
    void *memory = realloc(old, size ? size : 1);
    if (!memory) {
        fputs("ask: out of memory\n", stderr);
        exit(2);
    }
    return memory;
}

void *shim_zeros(size_t count, size_t size)
{
    return memset(shim_memory(NULL, count * size), 0, count * size);
}

void shim_say(enum said_kind kind, const char *format, ...)
{
    struct said *row;
    va_list words;

    said = shim_memory(said, (said_count + 1) * sizeof(*said));
    row = said + said_count++;
    row->kind = kind;
    row->item = shim_items;
    va_start(words, format);
    vsnprintf(row->text, sizeof(row->text), format, words);
    va_end(words);
    row->text[strcspn(row->text, "\n")] = 0;
}
