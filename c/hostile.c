/* Descriptors that ask for much, and long ones: each function answers them by the default limit.
 * checks/c/cases.sh runs this in 64 MB. It prints what is answered otherwise, and how many answers
 * it looked at. */
#include <stdio.h>
#include <stdlib.h>
#include <string.h>
#include <time.h>

#include "hidreport.h"
#include "hostile_memory.h"

/* Bytes: what stands in front, then what is repeated; and the answer that is wanted. */
struct row {
    const char *name;
    const char *front;
    size_t front_length;
    const char *again;
    size_t again_length;
    size_t times;
    uint32_t status;
    size_t offset;
};

#define ROW(name, front, again, times, status, offset) \
    { name, front, sizeof front - 1, again, sizeof again - 1, times, status, offset }

static const struct row rows[] = {
    ROW("2^32 - 1 fields", "\x05\x01\x09\x30\x75\x01\x97\xff\xff\xff\xff\x81\x02", "", 0,
        HIDREPORT_BUDGET_EXCEEDED, 11),
    ROW("a pen whose count has one bit turned",
        "\x05\x0d\x09\x02\xa1\x01\x09\x20\xa1\x00\x09\x42\x15\x00\x25\x01\x75\x01\x97\x01"
        "\x81\x02\x75\x07\x81\x01\x05\x01\x35\x00\x55\x0e\x65\x11\x75\x10\x09\x30\x26\x20"
        "\x4e\x46\xd0\x07\x81\x02\x09\x31\x26\xe0\x2e\x46\xb0\x04\x81\x02\xc0\xc0",
        "", 0, HIDREPORT_BUDGET_EXCEEDED, 44),
    ROW("65,536 fields and one",
        "\x05\x01\x09\x30\x75\x01\x97\x00\x00\x01\x00\x81\x02\x09\x30\x95\x01", "\x81\x02", 1,
        HIDREPORT_BUDGET_EXCEEDED, 17),
    ROW("an array of 2^32 usages",
        "\x05\x01\x1b\x00\x00\x00\x00\x2b\xff\xff\xff\xff\x75\x08\x95\x01", "\x81\x00", 1,
        HIDREPORT_BUDGET_EXCEEDED, 16),
    ROW("collections of 2^32 usages", "\x05\x01\x1b\x00\x00\x00\x00\x2b\xff\xff\xff\xff",
        "\xa4\xa1\x00\xb4", 16381, HIDREPORT_BUDGET_EXCEEDED, 13),
    ROW("fields in many collections", "\x05\x01", "\xa1\x00\x09\x30\x75\x08\x95\x01\x81\x02", 6553,
        HIDREPORT_BUDGET_EXCEEDED, 3600),
    ROW("65,536 Pushes", "", "\xa4", 65536, HIDREPORT_ACCEPTED, 0),
    ROW("Pushes that set a global", "", "\xa4\x14", 32768, HIDREPORT_ACCEPTED, 0),
    ROW("usages", "\x05\x01", "\x09\x30", 32767, HIDREPORT_ACCEPTED, 0),
    ROW("collections in each other", "", "\xa1\x00", 32768, HIDREPORT_ACCEPTED, 0),
    ROW("ended usages in Pushes", "\x05\x01", "\xa4\x09\x30\xb1\x02", 13106, HIDREPORT_ACCEPTED, 0),
    ROW("long items", "", "\xfe\x01\x00\x00", 16384, HIDREPORT_ACCEPTED, 0),
    ROW("zeros", "", "\0", 65536, HIDREPORT_INVALID_DATA, 0),
    ROW("reserved items", "", "\xc4", 65536, HIDREPORT_ACCEPTED, 0),
    ROW("65,537 reserved items", "", "\xc4", 65537, HIDREPORT_BUDGET_EXCEEDED, 65536),
    ROW("1 MB of Pushes", "", "\xa4", 1048576, HIDREPORT_BUDGET_EXCEEDED, 65536),
};

static int wrong;
static unsigned looked_at;

static void look(const struct row *row, const char *call, struct hidreport_answer answer)
{
    looked_at++;
    if (answer.status == row->status && answer.offset == row->offset)
        return;
    printf("hostile: %s: %s has status %u at %zu\n", row->name, call, answer.status, answer.offset);
    wrong = 1;
}

/* The same of a function that reads items alone, which weigh nothing. */
static void look_at_items(const struct row *row, const char *call, struct hidreport_answer answer)
{
    struct row items = *row;
    if (row->status == HIDREPORT_BUDGET_EXCEEDED)
        items.status = HIDREPORT_ACCEPTED, items.offset = 0;
    look(&items, call, answer);
}

/* Of the items from the front there are some just where the first can be read. */
static void look_at_front(const struct row *row, struct hidreport_answer answer)
{
    looked_at++;
    if (answer.status == HIDREPORT_ACCEPTED && answer.offset == 0
        && (answer.count > 0) == (row->status != HIDREPORT_INVALID_DATA))
        return;
    printf("hostile: %s: front_items has %zu\n", row->name, answer.count);
    wrong = 1;
}

/* The same of a descriptor and itself, which are alike just where it is read. */
static void look_at_likeness(const struct row *row, struct hidreport_likeness likeness)
{
    struct hidreport_answer answer = {0, likeness.offset, likeness.status};
    look(row, "is_alike", answer);
    if (likeness.is_alike == (likeness.status == HIDREPORT_ACCEPTED) && !likeness.is_of_other)
        return;
    printf("hostile: %s: is_alike says %d\n", row->name, likeness.is_alike);
    wrong = 1;
}

/* The same of a text, of which there is some just where the descriptor is refused. */
static void look_at_text(const struct row *row, const char *call, int is_refused,
                         struct hidreport_answer answer)
{
    looked_at++;
    if (answer.status == HIDREPORT_ACCEPTED && (answer.count > 0) == is_refused)
        return;
    printf("hostile: %s: %s has %zu bytes\n", row->name, call, answer.count);
    wrong = 1;
}

/* 4,097 items where there is room for three: they are counted, and no more are written. */
static void ask_with_little_room(void)
{
    static uint8_t bytes[4097];
    struct hidreport_item items[4];

    memset(bytes, 0xc4, sizeof bytes);
    memset(items, 0xff, sizeof items);
    struct hidreport_answer answer = hidreport_items(bytes, sizeof bytes, items, 3);
    int is_right = answer.status == HIDREPORT_ACCEPTED && answer.count == sizeof bytes;
    for (size_t i = 0; i < 3; i++)
        is_right = is_right && items[i].offset == i && items[i].size == 1;
    looked_at++;
    if (is_right && items[3].offset == SIZE_MAX && items[3].size == SIZE_MAX)
        return;
    printf("hostile: 4,097 items with room for three: %zu\n", answer.count);
    wrong = 1;
}

/* Each function that reads a descriptor; what it lists isn't asked for. A list of items has no
 * limit, and takes 56 bytes for each. */
static void ask(const struct row *row, const uint8_t *bytes, size_t length)
{
    struct hidreport_options options = HIDREPORT_DEFAULTS;
    const uint8_t report[1] = {0};

    look(row, "reports",
         hidreport_reports(bytes, length, options, HIDREPORT_INPUT, NULL, 0));
    look(row, "describe",
         hidreport_describe(bytes, length, options, HIDREPORT_INPUT, NULL, 0));
    look(row, "find",
         hidreport_find(bytes, length, options, HIDREPORT_INPUT, report, 1, NULL, 0));
    look(row, "report",
         hidreport_report_with(bytes, length, options, HIDREPORT_INPUT, true, 1, NULL, 0));
    look(row, "field", hidreport_field_numbered(bytes, length, options, 0, NULL, 0));
    look(row, "field_for",
         hidreport_field_for(bytes, length, options, HIDREPORT_INPUT, false, 0, 0x10030, NULL, 0));
    look(row, "groups", hidreport_groups(bytes, length, options, HIDREPORT_INPUT, NULL, 0));
    look(row, "group_usage",
         hidreport_group_usage(bytes, length, options, HIDREPORT_INPUT, 0, 0, NULL, 0));
    look(row, "group_field",
         hidreport_group_field(bytes, length, options, HIDREPORT_INPUT, 0, 0, NULL, 0));
    look(row, "describe_usages",
         hidreport_describe_usages(bytes, length, options, HIDREPORT_INPUT, NULL, 0));
    look(row, "find_usages",
         hidreport_find_usages(bytes, length, options, HIDREPORT_INPUT, report, 1, NULL, 0));
    look_at_likeness(row, hidreport_is_alike(bytes, length, bytes, length, options));
    look(row, "usages", hidreport_usages(bytes, length, options, 0, NULL, 0));
    look(row, "collections", hidreport_collections(bytes, length, options, 0, NULL, 0));
    look(row, "collection_usages",
         hidreport_collection_usages(bytes, length, options, 0, 0, NULL, 0));
    look(row, "describe_collections",
         hidreport_describe_collections(bytes, length, options, HIDREPORT_INPUT, NULL, 0));
    look(row, "describe_collection_usages",
         hidreport_describe_collection_usages(bytes, length, options, HIDREPORT_INPUT, NULL, 0));
    look(row, "repair",
         hidreport_repair(bytes, length, options, HIDREPORT_MEND_DEFAULT, NULL, 0));
    look(row, "changes",
         hidreport_changes(bytes, length, options, HIDREPORT_MEND_DEFAULT, NULL, 0));
    look_at_text(row, "message", row->status != HIDREPORT_ACCEPTED,
                 hidreport_message(bytes, length, options, NULL, 0));
    look_at_text(row, "repair_message", row->status != HIDREPORT_ACCEPTED,
                 hidreport_repair_message(bytes, length, options, HIDREPORT_MEND_DEFAULT, NULL, 0));
    if (length > 65536)
        return;
    look_at_front(row, hidreport_front_items(bytes, length, NULL, 0));
    look_at_items(row, "items", hidreport_items(bytes, length, NULL, 0));
    look_at_items(row, "rebuild", hidreport_rebuild(bytes, length, NULL, 0));
    look_at_text(row, "items_message", row->status == HIDREPORT_INVALID_DATA,
                 hidreport_items_message(bytes, length, NULL, 0));
}

static void say(int is_right, const char *what)
{
    looked_at++;
    if (is_right)
        return;
    printf("hostile: %s\n", what);
    wrong = 1;
}

/* Without a limit 2^32 - 1 fields are one report and one group, each usage of which is there by its
 * place; where there is no room for it the group isn't written. */
static void ask_for_groups(void)
{
    const struct row *row = &rows[0];
    const uint8_t *bytes = (const uint8_t *)row->front;
    struct hidreport_options options = HIDREPORT_DEFAULTS;
    struct hidreport_report report;
    struct hidreport_group group;
    uint32_t usage[2] = {7, 7};

    options.limit = HIDREPORT_NO_LIMIT;
    memset(&group, 0xff, sizeof group);
    struct hidreport_answer answer =
        hidreport_groups(bytes, row->front_length, options, HIDREPORT_INPUT, &group, 0);
    say(answer.count == 1 && group.first_bit == SIZE_MAX, "a group without room");
    answer = hidreport_reports(bytes, row->front_length, options, HIDREPORT_INPUT, &report, 1);
    say(answer.status == HIDREPORT_ACCEPTED && answer.count == 1
        && report.field_count == UINT32_MAX && report.size_in_bits == UINT32_MAX && !report.has_id,
        "2^32 - 1 fields as one report");
    answer = hidreport_groups(bytes, row->front_length, options, HIDREPORT_INPUT, &group, 1);
    say(answer.status == HIDREPORT_ACCEPTED && answer.count == 1 && group.kind == HIDREPORT_VARIABLE
        && group.element_count == UINT32_MAX && group.field_count == UINT32_MAX
        && group.element_width == 1 && group.usage == 0x10030, "2^32 - 1 fields as one group");
    answer = hidreport_group_usage(bytes, row->front_length, options, HIDREPORT_INPUT, 0,
                                   UINT32_MAX - 1, usage, 1);
    say(answer.status == HIDREPORT_ACCEPTED && answer.count == 1 && usage[0] == 0x10030
        && usage[1] == 7, "the usage of the last of them");
    answer = hidreport_group_usage(bytes, row->front_length, options, HIDREPORT_INPUT, SIZE_MAX,
                                   SIZE_MAX, usage, 2);
    say(answer.status == HIDREPORT_ACCEPTED && answer.count == 0 && usage[1] == 7,
        "the usage of no group");
}

/* Without a limit an array's usages aren't listed, either: as hosts read them, each of nine maxima
 * names all from 0 on. */
static void ask_for_many_ranges(void)
{
    static const uint8_t bytes[] = "\x05\x01\x2b\0\0\0\1\x2b\0\0\0\1\x2b\0\0\0\1\x2b\0\0\0\1"
                                   "\x2b\0\0\0\1\x2b\0\0\0\1\x2b\0\0\0\1\x2b\0\0\0\1"
                                   "\x2b\0\0\0\1\x75\x08\x95\x01\x81";
    struct hidreport_options options = HIDREPORT_REPAIR_DEFAULTS;
    struct hidreport_group group;
    uint32_t usages[2] = {7, 7};

    options.limit = HIDREPORT_NO_LIMIT;
    struct hidreport_answer answer =
        hidreport_groups(bytes, sizeof bytes, options, HIDREPORT_INPUT, &group, 1);
    say(answer.status == HIDREPORT_ACCEPTED && answer.count == 1 && group.kind == HIDREPORT_ARRAY
        && group.field_count == 1 && group.usage == 0, "an array of nine ranges");
    answer = hidreport_group_usage(bytes, sizeof bytes, options, HIDREPORT_INPUT, 0, 0x1000000,
                                   &usages[0], 1);
    say(answer.count == 1 && usages[0] == 0x1000000, "the last usage of the first range");
    answer = hidreport_group_usage(bytes, sizeof bytes, options, HIDREPORT_INPUT, 0, 0x1000001,
                                   &usages[1], 1);
    say(answer.count == 1 && usages[1] == 0, "the first usage of the second range");
}

/* Without a limit a collection's usages aren't listed for the groups in it: 2^32 between a minimum and
 * a maximum, and, as hosts read them, one and 2^28 behind it. */
static void ask_for_collections(void)
{
    static const uint8_t range[] = "\x05\x01\x1b\0\0\0\0\x2b\xff\xff\xff\xff\xa1\x01"
                                   "\x75\x08\x95\x01\x09\x30\x81\x02\xc0";
    static const uint8_t spans[] = "\x05\x01\x09\x02\x2b\xff\xff\xff\x0f\xa1\x01"
                                   "\x75\x08\x95\x01\x09\x30\x81\x02\xc0";
    struct hidreport_options options = HIDREPORT_DEFAULTS;
    struct hidreport_group group;

    options.limit = HIDREPORT_NO_LIMIT;
    struct hidreport_answer answer =
        hidreport_groups(range, sizeof range - 1, options, HIDREPORT_INPUT, &group, 1);
    say(answer.status == HIDREPORT_ACCEPTED && answer.count == 1 && group.usage == 0x10030
        && group.collections.count == 1 && group.collections.innermost == 0,
        "a group in a collection of a range");
    options = HIDREPORT_REPAIR_DEFAULTS;
    options.limit = HIDREPORT_NO_LIMIT;
    answer = hidreport_groups(spans, sizeof spans - 1, options, HIDREPORT_INPUT, &group, 1);
    say(answer.status == HIDREPORT_ACCEPTED && answer.count == 1 && group.usage == 0x10030
        && group.collections.count == 1 && group.collections.innermost == 0,
        "a group in a collection of spans");
}

/* A report that says that it has more bytes than there are gets those that there are. */
static void ask_for_a_blank(void)
{
    const struct hidreport_report report = {
        .size_in_bytes = SIZE_MAX, .has_id = true, .id = 3};
    uint8_t bytes[4] = {255, 255, 255, 255};

    struct hidreport_answer answer = hidreport_blank(&report, bytes, 3);
    looked_at++;
    if (answer.status == HIDREPORT_ACCEPTED && answer.count == SIZE_MAX
        && memcmp(bytes, "\x03\0\0\xff", 4) == 0)
        return;
    printf("hostile: a blank report of SIZE_MAX bytes: %zu\n", answer.count);
    wrong = 1;
}

int main(void)
{
    for (size_t i = 0; i < sizeof rows / sizeof rows[0]; i++) {
        const struct row *row = &rows[i];
        size_t length = row->front_length + row->times * row->again_length;
        uint8_t *bytes = malloc(length);
        clock_t begun = clock();
        if (!bytes)
            return 2;
        memcpy(bytes, row->front, row->front_length);
        for (size_t n = 0; n < row->times; n++)
            memcpy(bytes + row->front_length + n * row->again_length, row->again,
                   row->again_length);
        ask(row, bytes, length);
        free(bytes);
        if (clock() - begun > CLOCKS_PER_SEC) {
            printf("hostile: %s takes more than a second\n", row->name);
            wrong = 1;
        }
    }
    ask_with_little_room();
    ask_to_write(say);
    ask_for_a_blank();
    ask_for_groups();
    ask_for_many_ranges();
    ask_for_collections();
    ask_to_read(say);
    ask_to_read_with_little_room(say);
    ask_to_write_more_than_counted(say);
    ask_by_no_runs(say);
    ask_to_prepare(say);
    ask_for_numbers(say);
    ask_for_texts(say);
#ifdef PORTABLE
    (void)ask_without_memory;
#else
    ask_without_memory(say);
#endif
    printf("hostile: %u answers\n", looked_at);
    return wrong;
}
