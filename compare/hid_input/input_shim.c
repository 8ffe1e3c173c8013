/* What input_shim.h says, as far as it is no macro. */
#include "kernel.h"
#include <stdarg.h>

unsigned int shim_inputs;
struct work_struct *shim_work;
struct hidraw shim_hidraw;

void shim_free_input(struct input_dev *device)
{
    if (!device)
        return;
    list_del(&device->node);
    free(device->vals);
    free(device->absinfo);
    free(device);
}

char *kasprintf(gfp_t flags, const char *format, ...)
{
    char *text = shim_zeros(256, 1);
    va_list words;

    (void)flags;
    va_start(words, format);
    vsnprintf(text, 256, format, words);
    va_end(words);
    return text;
}
