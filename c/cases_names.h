/* Questions of names. */
#include "cases_wholes.h"

/* A name has a `_` for each space. */
static size_t name_of(const char *word, uint8_t *name)
{
    for (size_t i = 0; word[i]; i++)
        name[i] = word[i] == '_' ? ' ' : (uint8_t)word[i];
    return strlen(word);
}

static void print_usage(struct hidreport_usage u)
{
    printf("  usage %08" PRIx32 " %d\n", u.usage, u.is_meant);
}

static void usage_name(const char *usage, const char *none)
{
    static uint8_t text[ROOM];
    (void)none;
    print_written(hidreport_usage_name(usage_of(usage), text, sizeof text), text, "%c");
}

static void page_name(const char *page, const char *none)
{
    static uint8_t text[ROOM];
    (void)none;
    print_written(hidreport_page_name((uint16_t)usage_of(page), text, sizeof text), text, "%c");
}

static void usage_by_name(const char *word, const char *none)
{
    uint8_t name[ROOM];
    size_t count = name_of(word, name);
    (void)none;
    print_usage(hidreport_usage_by_name(name, count));
}

static void usage_on_page(const char *page, const char *word)
{
    uint8_t name[ROOM];
    size_t count = name_of(word, name);
    print_usage(hidreport_usage_on_page((uint16_t)usage_of(page), name, count));
}

static void page_by_name(const char *word, const char *none)
{
    uint8_t name[ROOM];
    size_t count = name_of(word, name);
    struct hidreport_page p = hidreport_page_by_name(name, count);
    (void)none;
    printf("  page %04x %d\n", (unsigned)p.page, p.is_there);
}

static void item_name(const char *first, const char *second)
{
    static uint8_t text[ROOM];
    (void)first, (void)second;
    print_written(hidreport_item_name(bytes, length, text, sizeof text), text, "%c");
}

static void flag_words(const char *first, const char *second)
{
    static uint8_t text[ROOM];
    (void)first, (void)second;
    print_written(hidreport_flag_words(bytes, length, text, sizeof text), text, "%c");
}

static void collection_name(const char *kind, const char *none)
{
    static uint8_t text[ROOM];
    (void)none;
    print_written(hidreport_collection_name(number_of(kind), text, sizeof text), text, "%c");
}
