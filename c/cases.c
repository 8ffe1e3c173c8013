/* Asks the library what the lines of its input ask, and prints each question with its answer below
 * it, two spaces in: every member of every struct. c/cases.txt has such lines, and says how they
 * are written; checks/c/cases.sh compares. */
#include "cases_names.h"

static void version(const char *first, const char *second)
{
    uint32_t number = hidreport_version();
    (void)first, (void)second;
    printf("  %s\n", number == HIDREPORT_VERSION ? "as here" : "not as here");
}

static void choose(const char *limit, const char *push)
{
    options = HIDREPORT_DEFAULTS;
    if (strcmp(limit, "default") != 0)
        options.limit = strcmp(limit, "none") == 0 ? HIDREPORT_NO_LIMIT : number_of(limit);
    if (strcmp(push, "default") != 0)
        options.push = strcmp(push, "all") == 0       ? HIDREPORT_PUSH_ALL
                       : strcmp(push, "globals") == 0 ? HIDREPORT_PUSH_GLOBALS
                                                      : number_of(push);
}

static void choose_usages(const char *by, const char *none)
{
    (void)none;
    options.usages = strcmp(by, "standard") == 0 ? HIDREPORT_USAGES_STANDARD
                     : strcmp(by, "hosts") == 0  ? HIDREPORT_USAGES_HOSTS
                     : strcmp(by, "linux") == 0  ? HIDREPORT_USAGES_LINUX
                                                 : number_of(by);
}

static void reports(const char *direction, const char *none)
{
    static struct hidreport_report r[ROOM];
    size_t count = print_answer(
        hidreport_reports(bytes, length, options, direction_of(direction), r, ROOM));
    (void)none;
    for (size_t i = 0; i < count; i++)
        print_report(&r[i]);
}

static void find_report(const char *direction, const char *id)
{
    uint8_t number;
    bool has_id = id_of(id, &number);
    if (print_answer(hidreport_report_with(bytes, length, options, direction_of(direction), has_id,
                                           number, &listed_report, 1)) == 1)
        print_report(&listed_report);
}

static void blank(const char *room, const char *none)
{
    static uint8_t written[ROOM];
    (void)none;
    print_first(print_answer_within(hidreport_blank(&listed_report, written, room_of(room)),
                                    room_of(room)), written, "%02x");
}

static void describe(const char *direction, const char *none)
{
    (void)none;
    keep_fields(hidreport_describe(bytes, length, options, direction_of(direction), fields, ROOM));
}

static void find(const char *direction, const char *none)
{
    (void)none;
    keep_fields(hidreport_find(bytes, length, options, direction_of(direction), report,
                               report_length, fields, ROOM));
}

static void find_field(const char *number, const char *none)
{
    (void)none;
    keep_fields(hidreport_field_numbered(bytes, length, options, number_of(number), fields, ROOM));
}

static void find_field_for(const char *direction, const char *id_and_usage)
{
    uint8_t id;
    bool has_id = id_of(id_and_usage, &id);
    keep_fields(hidreport_field_for(bytes, length, options, direction_of(direction), has_id, id,
                                    usage_of(id_and_usage), fields, ROOM));
}

static void list_usages(const char *field, const char *none)
{
    (void)none;
    keep_usages(hidreport_usages(bytes, length, options, number_of(field), usages, ROOM));
}

static void collections(const char *field, const char *none)
{
    (void)none;
    print_collections(
        hidreport_collections(bytes, length, options, number_of(field), around, ROOM));
}

static void collection_usages(const char *field, const char *index)
{
    keep_usages(hidreport_collection_usages(bytes, length, options, number_of(field),
                                            number_of(index), usages, ROOM));
}

static void alike(const char *first, const char *second)
{
    struct hidreport_likeness l = hidreport_is_alike(bytes, length, report, report_length, options);
    (void)first, (void)second;
    printf("  offset %zu %s of %d alike %d\n", l.offset, words_of(l.status), l.is_of_other,
           l.is_alike);
}

static void message(const char *first, const char *second)
{
    static uint8_t text[ROOM];
    (void)first, (void)second;
    print_written(hidreport_message(bytes, length, options, text, sizeof text), text, "%c");
}

static void refusal(const char *first, const char *second)
{
    static uint8_t text[ROOM];
    struct hidreport_answer answer =
        hidreport_describe(bytes, length, options, HIDREPORT_INPUT, NULL, 0);
    struct hidreport_answer told = hidreport_message(bytes, length, options, text, sizeof text);
    (void)first, (void)second;
    printf("  %s at %zu: %.*s\n", words_of(answer.status), answer.offset, (int)told.count, text);
}

static struct hidreport_item item_list[ROOM];

static void items(const char *first, const char *second)
{
    (void)first, (void)second;
    print_items(print_answer(hidreport_items(bytes, length, item_list, ROOM)), item_list);
}

static void front_items(const char *room, const char *none)
{
    (void)none;
    struct hidreport_answer answer =
        hidreport_front_items(bytes, length, item_list, room_of(room));
    print_items(print_answer_within(answer, room_of(room)), item_list);
}

static void items_message(const char *first, const char *second)
{
    static uint8_t text[ROOM];
    (void)first, (void)second;
    print_written(hidreport_items_message(bytes, length, text, sizeof text), text, "%c");
}

static void rebuild(const char *first, const char *second)
{
    static uint8_t rebuilt[ROOM];
    (void)first, (void)second;
    print_written(hidreport_rebuild(bytes, length, rebuilt, sizeof rebuilt), rebuilt, "%02x");
}

static void repair(const char *mends, const char *room)
{
    static uint8_t repaired[ROOM];
    struct hidreport_answer answer =
        hidreport_repair(bytes, length, options, mends_of(mends), repaired, room_of(room));
    print_first(print_answer_within(answer, room_of(room)), repaired, "%02x");
}

static void changes(const char *mends, const char *room)
{
    static struct hidreport_change c[ROOM];
    size_t count = print_answer_within(
        hidreport_changes(bytes, length, options, mends_of(mends), c, room_of(room)),
        room_of(room));
    for (size_t i = 0; i < count; i++)
        printf("  offset %zu stood %zu stands %zu %s\n", c[i].offset, c[i].stood, c[i].stands,
               reason_of(c[i].reason));
}

static void repair_message(const char *mends, const char *none)
{
    static uint8_t text[ROOM];
    (void)none;
    print_written(
        hidreport_repair_message(bytes, length, options, mends_of(mends), text, sizeof text), text,
        "%c");
}

static void value(const char *field, const char *index)
{
    struct hidreport_value read =
        hidreport_value(field_of(field), report, report_length, number_of(index));
    printf("  number %" PRId64 " %s\n", read.number, words_of(read.status));
}

static void values(const char *field, const char *none)
{
    int64_t numbers[ROOM];
    size_t count = print_answer(
        hidreport_values(field_of(field), report, report_length, numbers, ROOM));
    (void)none;
    for (size_t i = 0; i < count; i++)
        printf("  %" PRId64 "\n", numbers[i]);
}

static void usage(const char *field, const char *number)
{
    struct hidreport_usage meant =
        hidreport_usage_of(field_of(field), strtoll(number, NULL, 10), usages, usage_count);
    printf("  usage %08" PRIx32 " %d\n", meant.usage, meant.is_meant);
}

static void value_of(const char *field, const char *usage)
{
    print_choice(hidreport_value_of(field_of(field), usage_of(usage), usages, usage_count));
}

static void null_value(const char *field, const char *none)
{
    (void)none;
    print_choice(hidreport_null_value(field_of(field)));
}

static void physical(const char *field, const char *number)
{
    print_fraction(hidreport_physical(field_of(field), strtoll(number, NULL, 10)));
}

static void normalized(const char *field, const char *number)
{
    print_fraction(hidreport_normalized(field_of(field), strtoll(number, NULL, 10)));
}

static void insert(const char *field, const char *index_and_value)
{
    const char *equals = strchr(index_and_value, '=');
    if (!equals)
        refuse("no value", index_and_value);
    print_inserted(hidreport_insert(field_of(field), report, report_length,
                                    number_of(index_and_value), strtoll(equals + 1, NULL, 10)));
}

static void insert_all(const char *field, const char *values)
{
    static int64_t numbers[ROOM];
    size_t count = numbers_of(values, numbers);
    print_inserted(
        hidreport_insert_all(field_of(field), report, report_length, numbers, count));
}

/* Each kind of question, and how many words it has before its bytes. */
static const struct {
    const char *kind;
    int words;
    void (*answer)(const char *first, const char *second);
} kinds[] = {
    {"version", 0, version},         {"options", 2, choose},
    {"usages-by", 1, choose_usages},
    {"reports", 1, reports},         {"describe", 1, describe},
    {"find", 1, find},               {"usages", 1, list_usages},
    {"collections", 1, collections}, {"collection-usages", 2, collection_usages},
    {"message", 0, message},         {"refusal", 0, refusal},
    {"items", 0, items},             {"rebuild", 0, rebuild},
    {"items-message", 0, items_message},
    {"repair", 2, repair},           {"changes", 2, changes},
    {"repair-message", 1, repair_message},
    {"value", 2, value},             {"values", 1, values},
    {"usage", 2, usage},
    {"report", 2, find_report},      {"blank", 1, blank},
    {"field", 1, find_field},        {"field-for", 2, find_field_for},
    {"value-of", 2, value_of},       {"null-value", 1, null_value},
    {"physical", 2, physical},       {"normalized", 2, normalized},
    {"insert", 2, insert},           {"insert-all", 2, insert_all},
    {"write", 1, write_all},
    {"alike", 0, alike},             {"front-items", 1, front_items},
    {"groups", 1, groups},           {"group-usage", 2, group_usage},
    {"group-field", 2, group_field}, {"describe-usages", 1, describe_usages},
    {"find-usages", 1, find_usages}, {"describe-collections", 1, describe_collections},
    {"describe-collection-usages", 1, describe_collection_usages},
    {"read", 1, read_all},           {"read-available", 1, read_available},
    {"usage-name", 1, usage_name},   {"usage-by-name", 1, usage_by_name},
    {"page-name", 1, page_name},     {"page-by-name", 1, page_by_name},
    {"usage-on-page", 2, usage_on_page},
    {"item-name", 0, item_name},     {"flag-words", 0, flag_words},
    {"collection-name", 1, collection_name},
};

static void answer_line(const char *line)
{
    char kind[32] = "", words[2][32] = {"", ""};
    const char *slash = strchr(line, '/');
    int from = 0, behind = 0;
    report_length = slash ? bytes_of(slash + 1, report) : 0;
    sscanf(line, "%31s%n", kind, &from);
    for (size_t k = 0; k < sizeof kinds / sizeof *kinds; k++)
        if (strcmp(kind, kinds[k].kind) == 0) {
            for (int w = 0; w < kinds[k].words; w++, from += behind)
                if (sscanf(line + from, " %31s%n", words[w], &behind) != 1)
                    refuse("a word is missing", line);
            length = bytes_of(line + from, bytes);
            kinds[k].answer(words[0], words[1]);
            return;
        }
    refuse("no question", line);
}

int main(void)
{
    char line[8192];
    choose("default", "all");
    while (fgets(line, sizeof line, stdin)) {
        line[strcspn(line, "\n")] = 0;
        puts(line);
        if (line[0] && line[0] != '#')
            answer_line(line);
    }
    return 0;
}
