/* Reading questions and saying refusals, for ask.c and hid_input/ask_input.c. */
#include "asking.h"
#include "said.h"
#include <signal.h>
#include <stdio.h>

sigjmp_buf stopped;

static void stop(int signal)
{
    siglongjmp(stopped, signal);
}

void print_text(const char *text)
{
    putchar('"');
    for (; *text; text++)
        if (*text == '"' || *text == '\\')
            printf("\\%c", *text);
        else
            putchar(*text);
    putchar('"');
}

const char *group_name(unsigned int group)
{
    switch (group) {
    case HID_GROUP_GENERIC: return "generic";
    case HID_GROUP_MULTITOUCH: return "multitouch";
    case HID_GROUP_SENSOR_HUB: return "sensor hub";
    case HID_GROUP_MULTITOUCH_WIN_8: return "multitouch win 8";
    case HID_GROUP_VIVALDI: return "vivaldi";
    default: return "?";
    }
}

static bool is_common(const char *text)
{
    return !strncmp(text, "item ", 5) && strstr(text, " parsing failed");
}

void print_refusal(unsigned int size, const char *group)
{
    const char *reason = "", *debug = NULL;
    unsigned int item = shim_items - 1, offset = shim_offset;
    size_t i;

    for (i = 0; i < said_count; i++) {
        if (said[i].item != shim_items)
            continue;
        if (said[i].kind == SAID_DEBUG)
            debug = said[i].text;
        else if (said[i].kind == SAID_ERROR && (!is_common(said[i].text) || !*reason))
            reason = said[i].text;
    }
    if (!strncmp(reason, "unbalanced ", 11)) {
        item = shim_items;
        offset = size;
    }
    printf("{\"refused\":");
    print_text(reason);
    if (debug && is_common(reason)) {
        printf(",\"debug\":");
        print_text(debug);
    }
    printf(",\"item\":%u,\"offset\":%u,\"group\":\"%s\"}\n", item, offset, group);
}

void print_stop(unsigned int size, const char *group)
{
    printf("{\"stopped\":\"a division of -2147483648 by -1\",\"item\":%u,\"offset\":%u,\"group\":\"%s\"}\n",
           shim_items, size, group);
}

static int digit(char c)
{
    return c >= '0' && c <= '9' ? c - '0' : c >= 'a' && c <= 'f' ? c - 'a' + 10 :
        c >= 'A' && c <= 'F' ? c - 'A' + 10 : -1;
}

char *take_bytes(char *word, u8 *bytes, unsigned int *size)
{
    *size = 0;
    for (; digit(word[0]) >= 0 && digit(word[1]) >= 0; word += 2)
        bytes[(*size)++] = (u8)(digit(word[0]) << 4 | digit(word[1]));
    if (*word && *word != ' ' && *word != '\n') {
        fprintf(stderr, "no bytes in hexadecimal digits: %s", word);
        exit(2);
    }
    return word;
}

char *begin_device(struct hid_device *device, struct hid_driver *driver, struct hid_ll_driver *transport,
                   char *line, unsigned int *size)
{
    u8 *bytes = (u8 *)line;
    char *rest = take_bytes(line, bytes, size);
    int i;

    memset(device, 0, sizeof(*device));
    device->driver = driver;
    device->ll_driver = transport;
    for (i = 0; i < HID_REPORT_TYPES; i++)
        INIT_LIST_HEAD(&device->report_enum[i].report_list);
    INIT_LIST_HEAD(&device->debug_list);
    hid_parse_report(device, bytes, *size);
    shim_scan(device);

    /* From here on the device has a name, as in the kernel. */
    device->dev.name = "hid";
    said_count = 0;
    shim_items = 0;
    return rest;
}

int answer_lines(int count, char **words, void (*answer)(char *line, unsigned int buffer))
{
    char *line = NULL;
    size_t room = 0;
    unsigned int buffer = 0;

    if (count == 3 && !strcmp(words[1], "--buffer"))
        buffer = (unsigned int)strtoul(words[2], NULL, 10);
    else if (count != 1) {
        fprintf(stderr, "usage: %s [--buffer BYTES]\n", words[0]);
        return 2;
    }
    signal(SIGFPE, stop);
    while (getline(&line, &room, stdin) >= 0)
        answer(line, buffer);
    free(line);
    return 0;
}
