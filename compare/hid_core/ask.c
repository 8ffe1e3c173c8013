/* ask [--buffer BYTES] < DESCRIPTORS: says how hid-core reads report descriptors, one in hexadecimal
 * digits a line, and the input reports that stand behind it, each behind a space: a line of JSON for each.
 *
 * Refused: {"refused": the message, "debug": what it says for debugging alone, if it does, "item": the
 * number of the item, from 0, "offset": of that item, "group"}. What is said at the end of the descriptor
 * has the number of all items and the size as offset. The message "item F S T G parsing failed" stands
 * there only where hid-core gives no other reason: then "debug" has it.
 *
 * Taken: {"group", "applications", "warned": [[text, first item, how often], ..], "collections": [[type,
 * usage, level, parent], ..], "reports": [{"type", "id", "application", "bits", "fields": [..]}, ..]}, the
 * inputs first, then outputs and features, each in the order in which they were registered. A field has its
 * "offset", "size", "count", "flags", "logical", "physical", "exponent", "unit", its three usages
 * "application", "physical_usage", "logical_usage", its "maxusage" and its "usages", as runs: USAGE,
 * FIRST..LAST (each one more) or USAGE*TIMES, then @COLLECTION, then xMULTIPLIER where it isn't 1.
 *
 * Where reports stand behind it, "read" has for each: [[[usage, value], ..], answer, message or ""]: the
 * events in order, what hid_input_report answers, and the last thing that it says.
 *
 * Where hid-core divides -2147483648 by -1, for which an x86 stops it: {"stopped": .., "item", ..}.
 * BYTES is the buffer of the transport: 16384 unless said; that of uhid has 4096. */
#include "asking.h"
#include "said.h"
#include <stdio.h>

static unsigned int events;

static void print_warnings(void)
{
    size_t i, k, times;
    const char *comma = "";

    printf(",\"warned\":[");
    for (i = 0; i < said_count; i++) {
        if (said[i].kind == SAID_DEBUG)
            continue;
        for (k = 0; k < i && (said[k].kind == SAID_DEBUG || strcmp(said[k].text, said[i].text)); k++)
            ;
        if (k < i)
            continue;
        for (times = 0; k < said_count; k++)
            times += said[k].kind != SAID_DEBUG && !strcmp(said[k].text, said[i].text);
        printf("%s[", comma);
        print_text(said[i].text);
        printf(",%u,%zu]", said[i].item - 1, times);
        comma = ",";
    }
    putchar(']');
}

static bool are_beside(const struct hid_usage *a, const struct hid_usage *b)
{
    return a->collection_index == b->collection_index &&
        a->resolution_multiplier == b->resolution_multiplier;
}

static void print_usages(const struct hid_field *field)
{
    unsigned int i, end, step;

    printf(",\"usages\":[");
    for (i = 0; i < field->maxusage; i = end) {
        const struct hid_usage *first = field->usage + i;

        if (first->usage_index != i)
            abort();
        end = i + 1;
        step = end < field->maxusage && first[1].hid == first->hid + 1;
        while (end < field->maxusage && are_beside(first, field->usage + end) &&
               field->usage[end].hid == field->usage[end - 1].hid + step)
            end++;
        printf("%s\"%08x", i ? "," : "", first->hid);
        if (end > i + 1 && step)
            printf("..%08x", field->usage[end - 1].hid);
        else if (end > i + 1)
            printf("*%u", end - i);
        printf("@%u", first->collection_index);
        if (first->resolution_multiplier != 1)
            printf("x%d", first->resolution_multiplier);
        putchar('"');
    }
    putchar(']');
}

static void print_field(const struct hid_field *field)
{
    printf("{\"offset\":%u,\"size\":%u,\"count\":%u,\"flags\":%u,\"logical\":[%d,%d]", field->report_offset,
           field->report_size, field->report_count, field->flags, field->logical_minimum,
           field->logical_maximum);
    printf(",\"physical\":[%d,%d],\"exponent\":%d,\"unit\":%u,\"application\":\"%08x\"",
           field->physical_minimum, field->physical_maximum, field->unit_exponent, field->unit,
           field->application);
    printf(",\"physical_usage\":\"%08x\",\"logical_usage\":\"%08x\",\"maxusage\":%u", field->physical,
           field->logical, field->maxusage);
    print_usages(field);
    putchar('}');
}

static void print_report(const struct hid_report *report)
{
    static const char *const types[] = {"input", "output", "feature"};
    unsigned int i;

    printf("{\"type\":\"%s\",\"id\":%u,\"application\":\"%08x\",\"bits\":%u,\"fields\":[", types[report->type],
           report->id, report->application, report->size);
    for (i = 0; i < report->maxfield; i++) {
        if (report->field[i]->index != i)
            abort();
        if (i)
            putchar(',');
        print_field(report->field[i]);
    }
    printf("]}");
}

static void print_taken(struct hid_device *device)
{
    const struct hid_report *report;
    const char *comma = "";
    unsigned int i;

    printf("{\"group\":\"%s\",\"applications\":%u", group_name(device->group), device->maxapplication);
    print_warnings();
    printf(",\"collections\":[");
    for (i = 0; i < device->maxcollection; i++) {
        const struct hid_collection *one = device->collection + i;

        printf("%s[%u,\"%08x\",%u,%d]", i ? "," : "", one->type, one->usage, one->level, one->parent_idx);
    }
    printf("],\"reports\":[");
    for (i = 0; i < HID_REPORT_TYPES; i++)
        list_for_each_entry(report, &device->report_enum[i].report_list, list) {
            printf("%s", comma);
            print_report(report);
            comma = ",";
        }
    putchar(']');
}

static int print_event(struct hid_device *device, struct hid_field *field, struct hid_usage *usage, s32 value)
{
    (void)device, (void)field;
    printf("%s[\"%08x\",%d]", events++ ? "," : "", usage->hid, value);
    return 0;
}

static void print_reading(struct hid_device *device, const u8 *bytes, unsigned int size)
{
    /* Behind a report's bytes there is room as in the kernel, where buffers hold all that is looked at. */
    u8 *report = shim_zeros(size + 8, 1);
    int answer;

    memcpy(report, bytes, size);
    said_count = events = 0;
    printf("[[");
    answer = hid_input_report(device, HID_INPUT_REPORT, report, size, 1);
    printf("],%d,", answer);
    print_text(said_count ? said[said_count - 1].text : "");
    putchar(']');
    free(report);
}

/* How it is read, and what the reports behind it say. */
static void print_answer(struct hid_device *device, char *rest, u8 *bytes, unsigned int size)
{
    const char *comma = "";

    if (hid_open_report(device)) {
        print_refusal(size, group_name(device->group));
        return;
    }
    print_taken(device);
    if (*rest == ' ')
        printf(",\"read\":[");
    for (; *rest == ' '; comma = ",") {
        rest = take_bytes(rest + 1, bytes, &size);
        printf("%s", comma);
        print_reading(device, bytes, size);
    }
    printf("%s}\n", *comma ? "]" : "");
    shim_close(device);
}

static void answer(char *line, unsigned int buffer)
{
    static struct hid_driver driver;
    static struct hid_ll_driver transport;
    static struct hid_device device;
    unsigned int size;
    char *rest;

    transport.max_buffer_size = buffer;
    driver.event = print_event;
    rest = begin_device(&device, &driver, &transport, line, &size);
    if (sigsetjmp(stopped, 1))
        print_stop(size, group_name(device.group));
    else {
        print_answer(&device, rest, (u8 *)line, size);
        kfree(device.dev_rdesc);
    }
}

int main(int count, char **words)
{
    return answer_lines(count, words, answer);
}
