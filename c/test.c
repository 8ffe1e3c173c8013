/* Looks at the library as C has it. test values DESCRIPTOR REPORT, test items DESCRIPTOR and test
 * rebuild DESCRIPTOR print what the program `hidreport` prints for the same words, each list being
 * asked for again in arrays of every length up to what there is; test bytes FILE writes a text of
 * hexadecimal numbers as bytes. */
#include <hidreport.h>

#include <inttypes.h>
#include <stdio.h>
#include <stdlib.h>
#include <string.h>

static uint8_t descriptor[8192];
static size_t descriptor_length;

static void fail(const char *why)
{
    fprintf(stderr, "test: %s\n", why);
    exit(3);
}

static size_t read_file(const char *name, uint8_t *bytes, size_t room)
{
    FILE *file = fopen(name, "rb");
    if (!file)
        fail(name);
    size_t length = fread(bytes, 1, room, file);
    fclose(file);
    return length;
}

static void expect_same(struct hidreport_answer a, struct hidreport_answer b)
{
    if (a.count != b.count || a.offset != b.offset || a.status != b.status)
        fail("the answer depends on the room");
}

/* An array of elements of a size, with one more behind it, which is to stay as it is. */
static uint8_t *guarded(size_t room, size_t size)
{
    uint8_t *array = malloc((room + 1) * size);
    if (!array)
        fail("no memory");
    memset(array, 0xa5, (room + 1) * size);
    return array;
}

static void expect_kept(const uint8_t *array, size_t from, size_t to)
{
    for (size_t i = from; i < to; i++)
        if (array[i] != 0xa5)
            fail("written behind what there is, or behind the room");
}

/* What is asked: a function by a letter, and what it is asked of. */
struct question {
    int what;
    const uint8_t *report;
    size_t report_length;
    const struct hidreport_field *field;
};

/* One call with so much room. */
static struct hidreport_answer ask(struct question q, void *array, size_t room)
{
    const struct hidreport_options o = HIDREPORT_DEFAULTS;
    const uint8_t *bytes = descriptor;
    size_t length = descriptor_length;
    uint32_t number = q.field ? q.field->number : 0;
    switch (q.what) {
    case 'p': return hidreport_reports(bytes, length, o, HIDREPORT_INPUT, array, room);
    case 'd': return hidreport_describe(bytes, length, o, HIDREPORT_INPUT, array, room);
    case 'f': return hidreport_find(bytes, length, o, HIDREPORT_INPUT, q.report, q.report_length,
                                    array, room);
    case 'u': return hidreport_usages(bytes, length, o, number, array, room);
    case 'c': return hidreport_collections(bytes, length, o, number, array, room);
    case 'm': return hidreport_message(bytes, length, o, array, room);
    case 'i': return hidreport_items(bytes, length, array, room);
    case 'n': return hidreport_items_message(bytes, length, array, room);
    case 'r': return hidreport_rebuild(bytes, length, array, room);
    case 'e': return hidreport_repair(bytes, length, o, HIDREPORT_MEND_CUT_SHORT, array, room);
    case 'h': return hidreport_changes(bytes, length, o, HIDREPORT_MEND_CUT_SHORT, array, room);
    default: return hidreport_values(q.field, q.report, q.report_length, array, room);
    }
}

/* All that there is, after calls with no room and with too little; more room than that is left as
 * it is. */
static struct hidreport_answer ask_all(struct question q, void *whole, size_t size)
{
    struct hidreport_answer answer = ask(q, NULL, 0);
    uint8_t *all = guarded(answer.count + 1, size);
    expect_same(answer, ask(q, all, answer.count + 1));
    expect_kept(all, answer.count * size, (answer.count + 2) * size);
    for (size_t room = 1; room < answer.count; room += answer.count / 16 + 1) {
        uint8_t *part = guarded(room, size);
        expect_same(answer, ask(q, part, room));
        if (memcmp(part, all, room * size) != 0)
            fail("too little room has other elements");
        expect_kept(part, room * size, (room + 1) * size);
        free(part);
    }
    memcpy(whole, &all, sizeof all);
    return answer;
}

static int refused(struct hidreport_answer answer, int message)
{
    char *text;
    struct question q = {message, NULL, 0, NULL};
    struct hidreport_answer said = ask_all(q, &text, 1);
    if (answer.status == HIDREPORT_INVALID_DATA)
        printf("refused: invalid data at offset %zu: %.*s\n", answer.offset, (int)said.count, text);
    else
        printf("refused: %.*s\n", (int)said.count, text);
    free(text);
    return 1;
}

static const char *words_of(uint32_t status)
{
    return status == HIDREPORT_OUT_OF_BOUNDS ? "out of bounds" : "mismatching report id";
}

static void print_kind(const struct hidreport_field *field)
{
    printf("%zu..%zu", field->first_bit, field->end_bit);
    if (field->kind == HIDREPORT_CONSTANT)
        printf(" constant");
    else if (field->kind == HIDREPORT_VARIABLE)
        printf(" variable %08" PRIx32, field->usages.first);
    else
        printf(" array");
}

/* What the field says of its usages and collections is what the lists of them say. */
static void expect_lists(const struct hidreport_field *field)
{
    uint32_t *usages;
    struct hidreport_collection *collections;
    struct question q = {'u', NULL, 0, field};
    size_t count = ask_all(q, &usages, sizeof *usages).count;
    if (count != field->usages.count)
        fail("a field has another number of usages");
    if (count > 0 && (usages[0] != field->usages.first || usages[count - 1] != field->usages.last))
        fail("the usages of a field are others");
    q.what = 'c';
    count = ask_all(q, &collections, sizeof *collections).count;
    if (count != field->collections.count)
        fail("a field has another number of collections");
    if (count > 0 && collections[count - 1].number != field->collections.innermost)
        fail("the innermost collection is another");
    free(usages);
    free(collections);
}

/* To write what was read changes nothing; into zeros it is read again, and nothing behind it is
 * written. */
static void expect_written(const struct hidreport_field *field, const uint8_t *report,
                           size_t length, const int64_t *values)
{
    static uint8_t again[8193];
    memcpy(again, report, length);
    again[length] = 0xa5;
    if (hidreport_insert_all(field, again, length, values, field->value_count) != 0
        || memcmp(again, report, length) != 0)
        fail("to write what was read changes something");
    for (size_t i = 0; i < length; i++)
        again[i] = i == 0 && field->has_report_id ? field->report_id : 0;
    for (size_t i = 0; i < field->value_count; i++)
        if (hidreport_insert(field, again, length, i, values[i]) != 0
            || hidreport_value(field, again, length, i).number != values[i])
            fail("what was written is not read again");
    if (again[length] != 0xa5)
        fail("written behind the report");
}

static void print_field(const struct hidreport_field *field, const uint8_t *report, size_t length)
{
    int64_t *values;
    struct question q = {'v', report, length, field};
    struct hidreport_answer answer = ask_all(q, &values, sizeof *values);
    print_kind(field);
    if (answer.status != HIDREPORT_ACCEPTED)
        printf(" %s", words_of(answer.status));
    for (size_t i = 0; i < answer.count; i++) {
        struct hidreport_value value = hidreport_value(field, report, length, i);
        if (value.status != HIDREPORT_ACCEPTED || value.number != values[i])
            fail("a value alone isn't the same");
        printf(" %" PRId64, values[i]);
    }
    if (answer.status == HIDREPORT_ACCEPTED)
        expect_written(field, report, length, values);
    struct hidreport_value behind = hidreport_value(field, report, length, field->value_count);
    if (behind.status != HIDREPORT_OUT_OF_BOUNDS)
        fail("a value behind the last is there");
    printf("\n");
    expect_lists(field);
    free(values);
}

/* As many fields as all reports have. */
static void expect_reports(size_t fields)
{
    struct hidreport_report *reports;
    struct question q = {'p', NULL, 0, NULL};
    size_t count = ask_all(q, &reports, sizeof *reports).count;
    for (size_t i = 0; i < count; i++) {
        fields -= reports[i].field_count;
        if (reports[i].size_in_bytes != (reports[i].size_in_bits + 7) / 8)
            fail("a report has another number of bytes");
    }
    if (fields != 0)
        fail("the reports have another number of fields");
    free(reports);
}

/* What is repaired is read, and as long as the changes say; what is read stays as it is. */
static void expect_repaired(int is_read)
{
    uint8_t *bytes;
    struct hidreport_change *changes;
    struct question q = {'e', NULL, 0, NULL}, h = {'h', NULL, 0, NULL};
    struct hidreport_answer repaired = ask_all(q, &bytes, 1);
    struct hidreport_answer listed = ask_all(h, &changes, sizeof *changes);
    size_t length = descriptor_length;
    for (size_t i = 0; i < listed.count; i++)
        length = length - changes[i].stood + changes[i].stands;
    if (listed.status != repaired.status || listed.offset != repaired.offset)
        fail("the changes are refused otherwise than the repair");
    if (repaired.status == HIDREPORT_ACCEPTED && repaired.count != length)
        fail("what is repaired is not as long as its changes say");
    if (repaired.status == HIDREPORT_ACCEPTED
        && hidreport_describe(bytes, length, HIDREPORT_DEFAULTS, HIDREPORT_INPUT, NULL, 0).status)
        fail("what is repaired is refused");
    if (is_read && (repaired.status != HIDREPORT_ACCEPTED || listed.count != 0
                    || memcmp(bytes, descriptor, length) != 0))
        fail("what is read is changed");
    free(bytes);
    free(changes);
}

static int print_values(const char *name)
{
    static uint8_t report[8192];
    struct hidreport_field *fields, *all;
    size_t length = read_file(name, report, sizeof report);
    struct question q = {'f', report, length, NULL}, d = {'d', NULL, 0, NULL};
    struct hidreport_answer answer = ask_all(q, &fields, sizeof *fields);
    struct hidreport_answer described = ask_all(d, &all, sizeof *all);
    if (described.status != answer.status || described.count < answer.count)
        fail("a report has more fields than all");
    expect_reports(described.count);
    expect_repaired(described.status == HIDREPORT_ACCEPTED);
    for (size_t i = 0; i < answer.count; i++)
        print_field(&fields[i], report, length);
    free(fields);
    free(all);
    return answer.status == HIDREPORT_ACCEPTED ? 0 : refused(answer, 'm');
}

static int print_items(void)
{
    struct hidreport_item *items;
    struct question q = {'i', NULL, 0, NULL};
    struct hidreport_answer answer = ask_all(q, &items, sizeof *items);
    for (size_t i = 0; i < answer.count; i++) {
        printf("%zu", items[i].offset);
        for (size_t j = 0; j < items[i].size; j++)
            printf(" %02x", descriptor[items[i].offset + j]);
        printf("\n");
    }
    free(items);
    return answer.status == HIDREPORT_ACCEPTED ? 0 : refused(answer, 'n');
}

static int print_rebuilt(void)
{
    uint8_t *bytes;
    struct question q = {'r', NULL, 0, NULL};
    struct hidreport_answer answer = ask_all(q, &bytes, 1);
    for (size_t i = 0; i < answer.count; i++)
        printf(i == 0 ? "%02x" : " %02x", bytes[i]);
    printf(answer.status == HIDREPORT_ACCEPTED ? "\n" : "");
    free(bytes);
    return answer.status == HIDREPORT_ACCEPTED ? 0 : refused(answer, 'n');
}

/* Hexadecimal numbers, and comments from # on. */
static int write_bytes(const char *name)
{
    FILE *file = fopen(name, "r");
    char line[4096];
    if (!file)
        fail(name);
    while (fgets(line, sizeof line, file)) {
        line[strcspn(line, "#")] = 0;
        for (char *word = strtok(line, " \t\n"); word; word = strtok(NULL, " \t\n"))
            putchar((int)strtoul(word, NULL, 16));
    }
    fclose(file);
    return 0;
}

int main(int count, char **words)
{
    if (count < 3)
        fail("words are missing");
    if (strcmp(words[1], "bytes") == 0)
        return write_bytes(words[2]);
    descriptor_length = read_file(words[2], descriptor, sizeof descriptor);
    if (strcmp(words[1], "values") == 0 && count == 4)
        return print_values(words[3]);
    return strcmp(words[1], "items") == 0 ? print_items() : print_rebuilt();
}
