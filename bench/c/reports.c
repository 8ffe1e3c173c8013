/* How long the library for C takes for all values of a report, each report by itself: by hidreport_read,
 * by runs that hidreport_prepare made, value by value, and as C does it by hand, with a place, a width
 * and a sign for each value, which is the limit. Standard input has a line NAME=HEX for each descriptor. Prints a table by how many values
 * reports have. Status 1: two ways don't read the same; 2: a line is no descriptor. */
#include "hidreport.h"
#include <ctype.h>
#include <math.h>
#include <stdio.h>
#include <stdlib.h>
#include <string.h>
#include <time.h>

enum { WAYS = 4, CLASSES = 5, ROUNDS = 15, MOST = 4096, SAMPLE_NS = 20000 };
enum { READ, PREPARED, BY_VALUE, BY_HAND };

/* Where a value lies, for reading by hand. */
struct place {
    size_t byte;
    unsigned shift;
    unsigned width;
    bool is_signed;
};

struct report {
    const struct hidreport_field *fields;
    size_t field_count;
    const struct hidreport_run *runs;
    size_t run_count;
    const struct place *places;
    size_t value_count;
    const uint8_t *bytes;
    size_t length;
};

/* Of the reports of a class: how many, sums of logarithms, and the largest ratio. */
struct class {
    const char *name;
    size_t most;
    size_t count;
    double to_value;
    double to_hand;
    double nanoseconds;
    double prepared;
    double prepared_to_hand;
    double largest;
};

static struct class classes[CLASSES] = {
    {.name = "1", .most = 1},
    {.name = "2 to 4", .most = 4},
    {.name = "5 to 12", .most = 12},
    {.name = "13 to 40", .most = 40},
    {.name = "more", .most = SIZE_MAX},
};
static int64_t values[WAYS][MOST];

static size_t read_at_once(const struct report *report, int64_t *into)
{
    return hidreport_read(report->fields, report->field_count, report->bytes, report->length, into,
                          MOST)
        .count;
}

static size_t read_prepared(const struct report *report, int64_t *into)
{
    return hidreport_read_prepared(report->runs, report->run_count, report->bytes, report->length,
                                   into, MOST)
        .count;
}

static size_t read_by_value(const struct report *report, int64_t *into)
{
    size_t count = 0;
    for (size_t i = 0; i < report->field_count; i++) {
        for (size_t k = 0; k < report->fields[i].value_count; k++) {
            into[count++] =
                hidreport_value(&report->fields[i], report->bytes, report->length, k).number;
        }
    }
    return count;
}

/* The bytes behind a report may be read: there are eight more. */
static size_t read_by_hand(const struct report *report, int64_t *into)
{
    for (size_t i = 0; i < report->value_count; i++) {
        const struct place *place = &report->places[i];
        uint64_t word;
        memcpy(&word, report->bytes + place->byte, sizeof word);
        uint64_t bits = word >> place->shift & ((UINT64_C(1) << place->width) - 1);
        uint64_t sign = place->is_signed ? UINT64_C(1) << (place->width - 1) : 0;
        into[i] = (int64_t)((bits ^ sign) - sign);
    }
    return report->value_count;
}

static size_t (*const ways[WAYS])(const struct report *, int64_t *) = {
    [READ] = read_at_once,
    [PREPARED] = read_prepared,
    [BY_VALUE] = read_by_value,
    [BY_HAND] = read_by_hand,
};

static double now(void)
{
    struct timespec time;
    clock_gettime(CLOCK_MONOTONIC, &time);
    return (double)time.tv_sec * 1e9 + (double)time.tv_nsec;
}

/* Nanoseconds of one of so many calls. */
static double time_of(int way, const struct report *report, size_t calls)
{
    double begin = now();
    for (size_t i = 0; i < calls; i++) {
        ways[way](report, values[way]);
        __asm__ volatile("" ::: "memory");
    }
    return (now() - begin) / (double)calls;
}

static int by_size(const void *one, const void *other)
{
    double a = *(const double *)one, b = *(const double *)other;
    return (a > b) - (a < b);
}

/* The median over some rounds, in which the ways take turns. */
static void measure(const struct report *report, double medians[WAYS])
{
    double times[WAYS][ROUNDS];
    size_t calls[WAYS];
    for (int way = 0; way < WAYS; way++) {
        for (calls[way] = 1; time_of(way, report, calls[way]) * (double)calls[way] < SAMPLE_NS;)
            calls[way] *= 2;
    }
    for (int round = 0; round < ROUNDS; round++) {
        for (int turn = 0; turn < WAYS; turn++) {
            int way = (turn + round) % WAYS;
            times[way][round] = time_of(way, report, calls[way]);
        }
    }
    for (int way = 0; way < WAYS; way++) {
        qsort(times[way], ROUNDS, sizeof times[way][0], by_size);
        medians[way] = times[way][ROUNDS / 2];
    }
}

static void note(const char *name, const struct report *report)
{
    double medians[WAYS];
    size_t count = read_by_hand(report, values[BY_HAND]);
    for (int way = 0; way < BY_HAND; way++) {
        if (ways[way](report, values[way]) != count ||
            memcmp(values[way], values[BY_HAND], count * sizeof values[way][0]) != 0) {
            fprintf(stderr, "reports: %s: other values\n", name);
            exit(1);
        }
    }
    measure(report, medians);
    struct class *class = classes;
    while (count > class->most)
        class++;
    double ratio = medians[READ] / medians[BY_VALUE];
    class->count++;
    class->to_value += log(ratio);
    class->to_hand += log(medians[READ] / medians[BY_HAND]);
    class->nanoseconds += log(medians[READ] / (double)count);
    class->prepared += log(medians[PREPARED] / (double)count);
    class->prepared_to_hand += log(medians[PREPARED] / medians[BY_HAND]);
    if (ratio > class->largest)
        class->largest = ratio;
    if (strcmp(name, "plain_mouse") == 0 || strcmp(name, "touch_screen") == 0)
        printf("%s, %zu values: %.0f ns by hidreport_read, %.0f prepared, %.0f value by value, "
               "%.0f by hand\n",
               name, count, medians[READ], medians[PREPARED], medians[BY_VALUE],
               medians[BY_HAND]);
}

/* The places of all values; 0 where a value has other bits than 1 to 32, or they are too many. */
static size_t places_of(const struct hidreport_field *fields, size_t count, struct place *places)
{
    size_t total = 0;
    for (size_t i = 0; i < count; i++) {
        const struct hidreport_field *field = &fields[i];
        if (field->value_count == 0)
            continue;
        size_t width = (field->end_bit - field->first_bit) / field->value_count;
        if (width == 0 || width > 32 || total + field->value_count > MOST)
            return 0;
        for (size_t k = 0; k < field->value_count; k++) {
            size_t bit = field->first_bit + k * width;
            places[total++] = (struct place){bit / 8, (unsigned)(bit % 8), (unsigned)width,
                                             field->measures.logical_minimum < 0};
        }
    }
    return total;
}

static void note_reports(const char *name, const uint8_t *bytes, size_t length, uint32_t direction)
{
    static struct hidreport_report reports[256];
    static struct hidreport_field fields[MOST];
    static struct hidreport_run runs[MOST];
    static struct place places[MOST];
    static uint8_t buffer[65536 + 8];
    size_t count =
        hidreport_reports(bytes, length, HIDREPORT_DEFAULTS, direction, reports, 256).count;
    for (size_t i = 0; i < count && i < 256; i++) {
        if (reports[i].size_in_bytes > 65536)
            continue;
        for (size_t k = 0; k < reports[i].size_in_bytes; k++)
            buffer[k] = (uint8_t)(k * 151 + 77);
        if (reports[i].has_id)
            buffer[0] = reports[i].id;
        size_t found = hidreport_find(bytes, length, HIDREPORT_DEFAULTS, direction, buffer,
                                      reports[i].size_in_bytes, fields, MOST)
                           .count;
        size_t total = found > MOST ? 0 : places_of(fields, found, places);
        if (total == 0)
            continue;
        size_t made = hidreport_prepare(fields, found, runs, MOST).count;
        note(name, &(struct report){fields, found, runs, made, places, total, buffer,
                                    reports[i].size_in_bytes});
    }
}

/* The bytes of pairs of digits up to the line's end; none where something else stands there. */
static size_t bytes_of(const char *digits, uint8_t *bytes, size_t room)
{
    size_t length = 0;
    for (; *digits != 0 && *digits != '\n'; digits += 2) {
        char pair[3] = {digits[0], digits[1], 0};
        if (length == room || !isxdigit((unsigned char)pair[0]) || !isxdigit((unsigned char)pair[1]))
            return 0;
        bytes[length++] = (uint8_t)strtoul(pair, NULL, 16);
    }
    return length;
}

static void print_classes(void)
{
    printf("\n| values of a report | reports | ns a value | to value by value | largest | to C by hand |"
           " prepared: ns a value | to C by hand |\n|---|--:|--:|--:|--:|--:|--:|--:|\n");
    for (struct class *class = classes; class < classes + CLASSES; class++) {
        double number = (double)class->count;
        if (class->count == 0)
            continue;
        printf("| %s | %zu | %.1f | %.2f | %.2f | %.2f | %.1f | %.2f |\n", class->name,
               class->count, exp(class->nanoseconds / number), exp(class->to_value / number),
               class->largest, exp(class->to_hand / number), exp(class->prepared / number),
               exp(class->prepared_to_hand / number));
    }
}

int main(void)
{
    static uint8_t bytes[65536];
    static char line[2 * sizeof bytes + 256];
    while (fgets(line, sizeof line, stdin) != NULL) {
        char *hex = strchr(line, '=');
        size_t length = hex == NULL ? 0 : bytes_of(hex + 1, bytes, sizeof bytes);
        if (length == 0) {
            fprintf(stderr, "reports: no descriptor: %s", line);
            return 2;
        }
        *hex = 0;
        for (uint32_t direction = 0; direction < 3; direction++)
            note_reports(line, bytes, length, direction);
    }
    print_classes();
    return 0;
}
