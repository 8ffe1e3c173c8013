/* Calls whose memory is refused. */
#include "hostile_names.h"

/* Memory as generated/heap.c has it, of which so many pieces are given: these three functions stand
 * in place of the library's own. */
struct rattle_tried {
    bool is_there;
    void *start;
};

static size_t given = SIZE_MAX;

static struct rattle_tried tried(void *start)
{
    static char nothing;
    return (struct rattle_tried){start != NULL, start != NULL ? start : &nothing};
}

static bool is_given(void)
{
    if (given != SIZE_MAX && given > 0)
        given--;
    return given > 0;
}

struct rattle_tried rattle_alloc(size_t size, size_t alignment);
struct rattle_tried rattle_alloc(size_t size, size_t alignment)
{
    return tried(is_given() ? malloc(size < alignment ? alignment : size) : NULL);
}

struct rattle_tried rattle_realloc(void *start, size_t kept, size_t size, size_t alignment);
struct rattle_tried rattle_realloc(void *start, size_t kept, size_t size, size_t alignment)
{
    (void)kept;
    return tried(is_given() ? realloc(start, size < alignment ? alignment : size) : NULL);
}

void rattle_dealloc(void *start);
void rattle_dealloc(void *start)
{
    free(start);
}

/* Two keys of three, in a collection, in an input report with an id. */
static const uint8_t keys[] = {0x05, 0x07, 0x09, 0x06, 0xa1, 0x01, 0x85, 0x05, 0x19, 0x04, 0x29,
                               0x06, 0x15, 0x01, 0x25, 0x03, 0x75, 0x08, 0x95, 0x02, 0x81, 0x00,
                               0xc0};
static const uint8_t pressed[] = {5, 1, 2};
#define KEYS keys, sizeof keys, HIDREPORT_DEFAULTS, HIDREPORT_INPUT

/* Each of these calls, by its number; the array has room for one of what is listed, or for so much
 * text. */
static struct hidreport_answer call(int number, void *array)
{
    switch (number) {
    case 0: return hidreport_groups(KEYS, array, 1);
    case 1: return hidreport_group_usage(KEYS, 0, 2, array, 1);
    case 2: return hidreport_describe_usages(KEYS, array, 3);
    case 3: return hidreport_find_usages(KEYS, pressed, sizeof pressed, array, 3);
    case 4: return hidreport_describe(KEYS, array, 1);
    case 5: return hidreport_find(KEYS, pressed, sizeof pressed, array, 1);
    case 6: return hidreport_reports(KEYS, array, 1);
    case 7: return hidreport_usages(keys, sizeof keys, HIDREPORT_DEFAULTS, 0, array, 3);
    case 8: return hidreport_usage_name(0x90005, array, 8);
    case 9: return hidreport_page_name(7, array, 8);
    case 10: return hidreport_group_field(KEYS, 0, 0, array, 1);
    case 11: return hidreport_describe_collections(KEYS, array, 1);
    case 12: return hidreport_describe_collection_usages(KEYS, array, 1);
    default: return hidreport_flag_words(keys + 20, 2, array, 8);
    }
}

/* Where a piece of memory is refused, the first or a later one, the answer is so, and the array as
 * it was; with enough of them there is an answer. */
static void ask_without_memory(saying *say)
{
    static const uint8_t before[sizeof(struct hidreport_field)];
    static struct hidreport_field array;

    for (int number = 0; number <= 13; number++) {
        struct hidreport_answer answer = {0, 0, HIDREPORT_OUT_OF_MEMORY};
        size_t pieces = 1;
        for (; pieces < 1000 && answer.status == HIDREPORT_OUT_OF_MEMORY; pieces++) {
            memset(&array, 0, sizeof array);
            given = pieces;
            answer = call(number, &array);
            given = SIZE_MAX;
            say(answer.status == HIDREPORT_ACCEPTED
                    || (answer.count == 0 && memcmp(&array, before, sizeof before) == 0),
                "what is told without memory");
        }
        say(pieces > 2 && answer.status == HIDREPORT_ACCEPTED && answer.count > 0,
            "what is told with enough memory");
    }
}
