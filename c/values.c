/* Prints the values of reports: values DESCRIPTOR REPORTS
 * REPORTS is a file with one report, or a device, from which each read gives one:
 * values /sys/class/hidraw/hidraw0/device/report_descriptor /dev/hidraw0 */
#include <fcntl.h>
#include <hidreport.h>
#include <inttypes.h>
#include <stdio.h>
#include <stdlib.h>
#include <unistd.h>

static uint8_t descriptor[4096], report[4096];
static size_t length;

/* The fields of a report depend on its first byte alone, so they are asked for once for each. No
 * report has more of them than the limit. */
static struct known { struct hidreport_answer found; struct hidreport_field *fields; } reports[256];

static const struct known *known_by(uint8_t first)
{
    struct known *known = &reports[first];
    if (!known->fields) {
        struct hidreport_field *fields = malloc(HIDREPORT_DEFAULT_LIMIT * sizeof *fields);
        known->found = hidreport_find(descriptor, length, HIDREPORT_DEFAULTS, HIDREPORT_INPUT,
                                      &first, 1, fields, fields ? HIDREPORT_DEFAULT_LIMIT : 0);
        known->fields = realloc(fields, (known->found.count + 1) * sizeof *fields);
        if (!fields || !known->fields)
            exit(2);
    }
    return known;
}

static void print_values(const struct hidreport_field *f, size_t size)
{
    for (size_t i = 0; i < f->value_count; i++) {
        struct hidreport_value value = hidreport_value(f, report, size, i);
        if (value.status == HIDREPORT_ACCEPTED)
            printf("%zu..%zu %08" PRIx32 " %" PRId64 "\n", f->first_bit, f->end_bit,
                   f->usages.first, value.number);
    }
}

int main(int count, char **words)
{
    int from = count == 3 ? open(words[1], O_RDONLY) : -1;
    int reading = count == 3 ? open(words[2], O_RDONLY) : -1;
    ssize_t size = read(from, descriptor, sizeof descriptor);
    if (from < 0 || reading < 0 || size < 0)
        return fprintf(stderr, "usage: values DESCRIPTOR REPORTS\n"), 2;
    length = (size_t)size;
    while ((size = read(reading, report, sizeof report)) > 0) {
        const struct known *known = known_by(report[0]);
        if (known->found.status != HIDREPORT_ACCEPTED)
            return fprintf(stderr, "refused: status %" PRIu32 "\n", known->found.status), 1;
        for (size_t f = 0; f < known->found.count; f++)
            print_values(&known->fields[f], (size_t)size);
    }
    return size < 0 ? 2 : 0;
}
