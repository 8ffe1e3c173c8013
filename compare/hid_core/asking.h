/* Reading questions and saying refusals, for ask.c and hid_input/ask_input.c. */
#ifndef HID_CORE_ASKING_H
#define HID_CORE_ASKING_H

#include "kernel.h"
#include <setjmp.h>

/* Where a division that an x86 stops goes on. */
extern sigjmp_buf stopped;

void print_text(const char *text);
const char *group_name(unsigned int group);

/* Says the message for which a descriptor was refused, and that for debugging at the same item. */
void print_refusal(unsigned int size, const char *group);

/* Says that hid-core was stopped, at the descriptor's end. */
void print_stop(unsigned int size, const char *group);

/* The bytes of a word in hexadecimal digits, in its place or another; what stands behind the word. */
char *take_bytes(char *word, u8 *bytes, unsigned int *size);

/* A device of the descriptor that the line begins with, scanned but not opened; what stands behind it. */
char *begin_device(struct hid_device *device, struct hid_driver *driver, struct hid_ll_driver *transport,
                   char *line, unsigned int *size);

/* Answers each line of the standard input; the program's status. */
int answer_lines(int count, char **words, void (*answer)(char *line, unsigned int buffer));

#endif
