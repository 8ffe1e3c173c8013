/* Questions of groups, and of all usages, collections and values at once. */
#include "cases_asked.h"

static void groups(const char *direction, const char *none)
{
    static struct hidreport_group g[ROOM];
    size_t count = print_answer(
        hidreport_groups(bytes, length, options, direction_of(direction), g, ROOM));
    (void)none;
    for (size_t i = 0; i < count; i++)
        print_group(&g[i]);
}

static void group_usage(const char *direction, const char *group_and_index)
{
    const char *equals = strchr(group_and_index, '=');
    if (!equals)
        refuse("no index", group_and_index);
    keep_usages(hidreport_group_usage(bytes, length, options, direction_of(direction),
                                      number_of(group_and_index), number_of(equals + 1), usages,
                                      ROOM));
}

static void group_field(const char *direction, const char *group_and_index)
{
    const char *equals = strchr(group_and_index, '=');
    if (!equals)
        refuse("no index", group_and_index);
    keep_fields(hidreport_group_field(bytes, length, options, direction_of(direction),
                                      number_of(group_and_index), number_of(equals + 1), fields,
                                      ROOM));
}

static void describe_usages(const char *direction, const char *none)
{
    (void)none;
    keep_usages(
        hidreport_describe_usages(bytes, length, options, direction_of(direction), usages, ROOM));
}

static void find_usages(const char *direction, const char *none)
{
    (void)none;
    keep_usages(hidreport_find_usages(bytes, length, options, direction_of(direction), report,
                                      report_length, usages, ROOM));
}

static void describe_collections(const char *direction, const char *none)
{
    (void)none;
    print_collections(hidreport_describe_collections(bytes, length, options,
                                                     direction_of(direction), around, ROOM));
}

static void describe_collection_usages(const char *direction, const char *none)
{
    (void)none;
    keep_usages(hidreport_describe_collection_usages(bytes, length, options,
                                                     direction_of(direction), usages, ROOM));
}

static void print_read(struct hidreport_answer answer, size_t room, const int64_t *numbers)
{
    size_t count = print_answer_within(answer, room);
    for (size_t i = 0; i < count; i++)
        printf("  %" PRId64 "\n", numbers[i]);
}

/* The runs of the fields that the last question gave. */
static struct hidreport_run runs[ROOM];

static size_t prepared_runs(void)
{
    struct hidreport_answer answer = hidreport_prepare(fields, field_count, runs, ROOM);
    if (answer.status != HIDREPORT_ACCEPTED || answer.count > field_count)
        printf("  not prepared\n");
    return answer.count;
}

/* Says so where the runs of the fields don't give what the fields give. */
static void compare_read(struct hidreport_answer by_fields, const int64_t *numbers, size_t room)
{
    static int64_t by_runs[ROOM];
    struct hidreport_answer answer =
        hidreport_read_prepared(runs, prepared_runs(), report, report_length, by_runs, room);
    size_t written = answer.count < room ? answer.count : room;

    if (answer.status != by_fields.status || answer.count != by_fields.count ||
        memcmp(by_runs, numbers, written * sizeof numbers[0]) != 0)
        printf("  otherwise by runs\n");
}

static void read_all(const char *room, const char *none)
{
    static int64_t numbers[ROOM];
    struct hidreport_answer answer =
        hidreport_read(fields, field_count, report, report_length, numbers, room_of(room));
    (void)none;
    print_read(answer, room_of(room), numbers);
    compare_read(answer, numbers, room_of(room));
}

static void write_all(const char *values, const char *none)
{
    static int64_t numbers[ROOM];
    static uint8_t by_runs[LENGTH];
    size_t count = numbers_of(values, numbers);
    (void)none;
    memcpy(by_runs, report, report_length);
    uint32_t status = hidreport_write_prepared(runs, prepared_runs(), by_runs, report_length,
                                               numbers, count);
    uint32_t by_fields =
        hidreport_write(fields, field_count, report, report_length, numbers, count);
    print_inserted(by_fields);
    if (status != by_fields || memcmp(by_runs, report, report_length) != 0)
        printf("  otherwise by runs\n");
}

static void read_available(const char *room, const char *none)
{
    static int64_t numbers[ROOM];
    (void)none;
    print_read(hidreport_read_available(fields, field_count, report, report_length, numbers,
                                        room_of(room)),
               room_of(room), numbers);
}
