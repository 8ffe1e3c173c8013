/* How the questions of c/cases.txt are written, and their answers: bytes and words. */
#include <hidreport.h>

#include <inttypes.h>
#include <stdio.h>
#include <stdlib.h>
#include <string.h>

enum { ROOM = 256, LENGTH = 70000 };

static void refuse(const char *why, const char *line)
{
    fprintf(stderr, "cases: %s: %s\n", why, line);
    exit(2);
}

/* Bytes are hexadecimal, `-` is none, `9*a4` is one of them nine times; they end at a `/`. */
static size_t bytes_of(const char *text, uint8_t *into)
{
    size_t length = 0, times;
    unsigned byte;
    int used;
    while (*text && *text != '/') {
        if (*text == ' ' || *text == '-') {
            text++;
            continue;
        }
        if (sscanf(text, "%zu*%2x%n", &times, &byte, &used) != 2) {
            times = 1;
            if (sscanf(text, "%2x%n", &byte, &used) != 1)
                refuse("no bytes", text);
        }
        if (times > LENGTH - length)
            refuse("too many bytes", text);
        memset(into + length, (int)byte, times);
        length += times;
        text += used;
    }
    return length;
}

static const char *words_of(uint32_t status)
{
    switch (status) {
    case HIDREPORT_ACCEPTED: return "accepted";
    case HIDREPORT_INVALID_DATA: return "invalid-data";
    case HIDREPORT_OUT_OF_BOUNDS: return "out-of-bounds";
    case HIDREPORT_MISMATCHING_REPORT_ID: return "mismatching-report-id";
    case HIDREPORT_OUT_OF_MEMORY: return "out-of-memory";
    case HIDREPORT_BUDGET_EXCEEDED: return "budget-exceeded";
    case HIDREPORT_UNKNOWN_OPTION: return "unknown-option";
    case HIDREPORT_DOES_NOT_FIT: return "does-not-fit";
    case HIDREPORT_WRONG_COUNT: return "wrong-count";
    default: return "?";
    }
}

static const char *kind_of(uint32_t kind)
{
    switch (kind) {
    case HIDREPORT_VARIABLE: return "variable";
    case HIDREPORT_ARRAY: return "array";
    case HIDREPORT_CONSTANT: return "constant";
    default: return "?";
    }
}

/* The kind of a collection; a number where the standard of today has none. */
static const char *collection_of(uint32_t kind)
{
    static char number[16];
    switch (kind) {
    case HIDREPORT_PHYSICAL: return "physical";
    case HIDREPORT_APPLICATION: return "application";
    case HIDREPORT_LOGICAL: return "logical";
    case HIDREPORT_REPORT: return "report";
    case HIDREPORT_NAMED_ARRAY: return "named-array";
    case HIDREPORT_USAGE_SWITCH: return "usage-switch";
    case HIDREPORT_USAGE_MODIFIER: return "usage-modifier";
    default: snprintf(number, sizeof number, "%" PRIu32, kind); return number;
    }
}

static uint32_t number_of(const char *word)
{
    return (uint32_t)strtoul(word, NULL, 10);
}

static uint32_t direction_of(const char *word)
{
    return strcmp(word, "input") == 0     ? HIDREPORT_INPUT
           : strcmp(word, "output") == 0  ? HIDREPORT_OUTPUT
           : strcmp(word, "feature") == 0 ? HIDREPORT_FEATURE
                                          : number_of(word);
}

static uint32_t mends_of(const char *word)
{
    if (strcmp(word, "both") == 0)
        return HIDREPORT_MEND_CUT_SHORT + HIDREPORT_MEND_UNSIGNED_MAXIMA;
    return strcmp(word, "default") == 0           ? HIDREPORT_MEND_DEFAULT
           : strcmp(word, "cut-short") == 0       ? HIDREPORT_MEND_CUT_SHORT
           : strcmp(word, "unsigned-maxima") == 0 ? HIDREPORT_MEND_UNSIGNED_MAXIMA
                                                  : number_of(word);
}

/* An id in front of anything, or `-` for none. */
static bool id_of(const char *word, uint8_t *id)
{
    *id = *word == '-' ? 0 : (uint8_t)number_of(word);
    return *word != '-';
}

/* A usage of hexadecimal digits, behind a `=` if there is one. */
static uint32_t usage_of(const char *word)
{
    const char *equals = strchr(word, '=');
    return (uint32_t)strtoul(equals ? equals + 1 : word, NULL, 16);
}

/* Numbers with a comma between two of them; `-` is none. */
static size_t numbers_of(const char *word, int64_t *numbers)
{
    size_t count = 0;
    char *end;
    while (strcmp(word, "-") != 0 && count < ROOM) {
        numbers[count++] = strtoll(word, &end, 10);
        if (!*end)
            break;
        word = end + 1;
    }
    return count;
}

static size_t room_of(const char *word)
{
    return strcmp(word, "enough") == 0 || number_of(word) > ROOM ? ROOM : number_of(word);
}

static const char *reason_of(uint32_t reason)
{
    switch (reason) {
    case HIDREPORT_NO_DATA: return "no data";
    case HIDREPORT_UNKNOWN_MAIN_ITEM: return "unknown main item";
    case HIDREPORT_ENDED_LOCAL: return "local of an unknown main item";
    case HIDREPORT_NO_USAGE: return "no usage";
    case HIDREPORT_UNSIGNED_MAXIMUM: return "unsigned maximum";
    case HIDREPORT_CUT_SHORT: return "cut short";
    default: return "?";
    }
}
