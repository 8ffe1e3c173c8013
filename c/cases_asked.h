/* What the questions of c/cases.txt are about: their own bytes, and what the last ones gave. */
#include "cases_print.h"

/* The descriptor and the report of a question. */
static uint8_t bytes[LENGTH], report[LENGTH];
static size_t length, report_length;

/* What the last questions gave stays for the questions about it. */
static struct hidreport_options options;
static struct hidreport_field fields[ROOM];
static size_t field_count;
static uint32_t usages[ROOM];
static size_t usage_count;
static struct hidreport_report listed_report;

static void keep_fields(struct hidreport_answer answer)
{
    field_count = print_answer(answer);
    for (size_t i = 0; i < field_count; i++)
        print_field(&fields[i]);
}

static void keep_usages(struct hidreport_answer answer)
{
    usage_count = print_answer(answer);
    for (size_t i = 0; i < usage_count; i++)
        printf("  %08" PRIx32 "\n", usages[i]);
}

static const struct hidreport_field *field_of(const char *word)
{
    if (number_of(word) >= field_count)
        refuse("no such field", word);
    return &fields[number_of(word)];
}

/* Collections, of which there is room for as many. */
static struct hidreport_collection around[ROOM];

static void print_collections(struct hidreport_answer answer)
{
    size_t count = print_answer(answer);
    for (size_t i = 0; i < count; i++)
        printf("  #%" PRIu32 " %s usages %zu %08" PRIx32 "\n", around[i].number,
               collection_of(around[i].kind), around[i].usage_count, around[i].usage);
}

static void print_inserted(uint32_t status)
{
    printf("  %s\n", words_of(status));
    print_first(report_length, report, "%02x");
}
