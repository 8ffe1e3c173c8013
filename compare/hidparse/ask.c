/* ask < DESCRIPTORS: says how Wine's hidparse.sys reads report descriptors, one in hexadecimal digits a
 * line: a line of JSON for each.
 *
 * Refused: {"refused": the name of the NTSTATUS, "reason": why, "offset": of the item}.
 *
 * Taken: {"said": [[message, offset], ..], "collections": [..], "reports": [[id, number of its
 * collection from 1, bytes of its input, output, feature], ..]}, as HidP_GetCollectionDescription has
 * them. An outermost collection has its "usage", the "lengths" of its longest input, output and feature,
 * its "nodes": [[type, usage, parent], ..], the first of them itself, and its "parts", inputs, outputs and
 * features. A part is [kind, id, first bit (behind the byte of the id, that each report has here), bits of a
 * value, number of values, BitField, flags, page, usage or first usage, last usage, logical minimum, logical
 * maximum, physical minimum, physical maximum, unit, exponent, null value, node].
 *
 * A reason or message is a word of ours for a message of Wine (`words`), with the offset of the item that
 * was begun last. */
#include "shim.h"
#include <ddk/hidpddi.h>
#include "wine/hid.h"
#include <stdbool.h>
#include <stdio.h>

struct said {
    const char *format;
    unsigned int offset;
};

static struct said *said;
static size_t said_count;
static const uint8_t *descriptor;
static unsigned int item_offset, behind_item, descriptor_size;

/* Our word for a message that has these words. */
static const struct {
    const char *has, *word;
} words[] = {
    {"Need", "cut short"},
    {"delimiter", "delimiter"},
    {"usages stack", "many usages"},
    {"values overflow", "many values"},
    {"collections overflow", "many collections"},
    {"parser stack overflow", "deep stack"},
    {"global stack underflow", "pop"},
    {"collection stack underflow", "end"},
    {"item type", "unknown"},
    {"device caps", "not popped"},
    {"device collection", "not closed"},
};

void shim_begin_item(const uint8_t *at, unsigned int size)
{
    item_offset = (unsigned int)(at - descriptor);
    behind_item = item_offset + 1 + size;
}

void shim_say(const char *format)
{
    said = realloc(said, (said_count + 1) * sizeof(*said));
    if (!said)
        exit(2);
    said[said_count].format = format;
    said[said_count].offset = item_offset;
    /* An item that is cut short isn't begun, or it was and ends past the end. */
    if (strstr(format, words[0].has) && behind_item <= descriptor_size)
        said[said_count].offset = behind_item;
    said_count++;
}

static void print_message(const char *format)
{
    size_t i;

    for (i = 0; i < sizeof(words) / sizeof(*words); i++)
        if (strstr(format, words[i].has)) {
            printf("\"%s\"", words[i].word);
            return;
        }
    fprintf(stderr, "a message without a word: %s", format);
    exit(2);
}

/* Whether it is said at the end of any descriptor, also of a refused one. */
static bool is_farewell(const struct said *one)
{
    return strstr(one->format, "unpopped") != NULL;
}

static const char *status_name(NTSTATUS status)
{
    switch ((uint32_t)status) {
    case 0xc0110008: return "HIDP_STATUS_INTERNAL_ERROR";
    case 0xc0000017: return "STATUS_NO_MEMORY";
    default: return "?";
    }
}

static void print_refusal(NTSTATUS status)
{
    const struct said *last = NULL;
    size_t i;

    for (i = 0; i < said_count; i++)
        if (!is_farewell(said + i))
            last = said + i;
    if (!last) {
        fputs("a refusal without a message\n", stderr);
        exit(2);
    }
    printf("{\"refused\":\"%s\",\"reason\":", status_name(status));
    print_message(last->format);
    printf(",\"offset\":%u}\n", last->offset);
}

static void print_said(void)
{
    const char *comma = "";
    size_t i;

    printf("{\"said\":[");
    for (i = 0; i < said_count; i++) {
        printf("%s[", comma);
        print_message(said[i].format);
        printf(",%u]", said[i].offset);
        comma = ",";
    }
    putchar(']');
}

static void print_part(const char *kind, const struct hid_value_caps *part)
{
    printf("[\"%s\",%u,%u,%u,%u,%u,%u,", kind, part->report_id, part->start_byte * 8 + part->start_bit,
           part->bit_size, part->report_count, part->bit_field, part->flags);
    printf("%u,%u,%u,%d,%d,%d,%d,", part->usage_page, part->usage_min, part->usage_max, part->logical_min,
           part->logical_max, part->physical_min, part->physical_max);
    printf("%d,%d,%u,%u]", part->units, part->units_exp, part->null_value, part->link_collection);
}

static void print_collection(const HIDP_COLLECTION_DESC *collection)
{
    struct hid_preparsed_data *data = (struct hid_preparsed_data *)collection->PreparsedData;
    const struct hid_collection_node *nodes = HID_COLLECTION_NODES(data);
    const char *const kinds[] = {"input", "output", "feature"};
    const unsigned int ends[] = {data->input_caps_end, data->output_caps_end, data->feature_caps_end};
    unsigned int i, kind;

    printf("{\"usage\":\"%04x%04x\",\"lengths\":[%u,%u,%u],\"nodes\":[", collection->UsagePage,
           collection->Usage, collection->InputLength, collection->OutputLength, collection->FeatureLength);
    for (i = 0; i < data->number_link_collection_nodes; i++)
        printf("%s[%u,\"%04x%04x\",%u]", i ? "," : "", nodes[i].collection_type, nodes[i].usage_page,
               nodes[i].usage, nodes[i].parent);
    printf("],\"parts\":[");
    for (i = kind = 0; kind < 3; kind++)
        for (; i < ends[kind]; i++) {
            printf("%s", i ? "," : "");
            print_part(kinds[kind], data->value_caps + i);
        }
    printf("]}");
}

static void print_taken(HIDP_DEVICE_DESC *device)
{
    unsigned int i;

    print_said();
    printf(",\"collections\":[");
    for (i = 0; i < device->CollectionDescLength; i++) {
        printf("%s", i ? "," : "");
        print_collection(device->CollectionDesc + i);
    }
    printf("],\"reports\":[");
    for (i = 0; i < device->ReportIDsLength; i++) {
        const HIDP_REPORT_IDS *report = device->ReportIDs + i;

        printf("%s[%u,%u,%u,%u,%u]", i ? "," : "", report->ReportID, report->CollectionNumber,
               report->InputLength, report->OutputLength, report->FeatureLength);
    }
    printf("]}\n");
}

static int digit(char c)
{
    return c >= '0' && c <= '9' ? c - '0' : c >= 'a' && c <= 'f' ? c - 'a' + 10 : -1;
}

static void answer(const char *line)
{
    /* Behind the bytes are others: Wine looks at some of an item that is cut short. */
    uint8_t *bytes = calloc(strlen(line) + 16, 1);
    HIDP_DEVICE_DESC device;
    NTSTATUS status;

    for (descriptor_size = 0; digit(line[0]) >= 0 && digit(line[1]) >= 0; line += 2)
        bytes[descriptor_size++] = (uint8_t)(digit(line[0]) << 4 | digit(line[1]));
    if (*line && *line != '\n') {
        fprintf(stderr, "no bytes in hexadecimal digits: %s", line);
        exit(2);
    }
    descriptor = bytes;
    said_count = item_offset = behind_item = 0;
    status = HidP_GetCollectionDescription(bytes, descriptor_size, 0, &device);
    if (status != HIDP_STATUS_SUCCESS)
        print_refusal(status);
    else {
        print_taken(&device);
        HidP_FreeCollectionDescription(&device);
    }
    free(bytes);
}

int main(void)
{
    char *line = NULL;
    size_t room = 0;

    while (getline(&line, &room, stdin) >= 0)
        answer(line);
    free(line);
    free(said);
    return 0;
}
