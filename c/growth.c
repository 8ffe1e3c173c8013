/* How much longer each function takes over 64 times the bytes: descriptors of 1 and of 64 KB of
 * one shape, with the default limit, and as hosts read them without one. checks/c/growth.sh runs this.
 * It prints what grows faster than the bytes to the power of 1.3, and how many pairs of times it looked at. */
#define _POSIX_C_SOURCE 199309L
#include <math.h>
#include <stdio.h>
#include <stdlib.h>
#include <string.h>
#include <time.h>
#ifdef __GLIBC__
#include <malloc.h>
#endif

#include "hidreport.h"

#define SHORT 1024
#define LONG 65536
#define MOST 1.3
#define LOOKS 12

/* What stands in front, what is repeated, and what stands behind. */
struct shape {
    const char *name;
    const char *front;
    size_t front_length;
    const char *again;
    size_t again_length;
    const char *behind;
    size_t behind_length;
};

#define SHAPE(name, front, again, behind) \
    { name, front, sizeof front - 1, again, sizeof again - 1, behind, sizeof behind - 1 }

static const struct shape shapes[] = {
    SHAPE("collections side by side", "\x05\x01\x75\x08\x95\x01", "\xa1\x00\x09\x30\x81\x02\xc0", ""),
    SHAPE("collections with two usages", "\x05\x01\x75\x08\x95\x01",
          "\x09\x30\x09\x38\xa1\x00\x09\x30\x81\x02\xc0", ""),
    SHAPE("collections in each other", "\x05\x01\x75\x08\x95\x01", "\xa1\x00", "\x09\x30\x81\x02"),
    SHAPE("arrays", "\x05\x01\x75\x08\x95\x01\x25\x01", "\x09\x30\x81\x00", ""),
    SHAPE("arrays of two usages", "\x05\x01\x75\x08\x95\x01\x25\x01", "\x09\x30\x09\x38\x81\x00", ""),
    SHAPE("fields of two usages", "\x05\x01\x75\x08\x95\x02", "\x09\x30\x09\x38\x81\x02", ""),
    SHAPE("padding", "\x75\x08\x95\x01", "\x81\x01", ""),
    SHAPE("reports in turn", "\x05\x01\x75\x08\x95\x01",
          "\x85\x01\x09\x30\x81\x02\x85\x02\x09\x30\x81\x02\x85\x03\x09\x30\x81\x02", ""),
    SHAPE("usages of one array", "\x05\x01\x75\x08\x95\x01", "\x09\x30", "\x81\x00"),
    SHAPE("Pushes that set a global", "", "\xa4\x14", ""),
    SHAPE("Pushes with their Pops", "\x05\x01\x75\x08\x95\x01", "\xa4\x09\x30\x81\x02\xb4", ""),
    SHAPE("ended usages in Pushes", "\x05\x01", "\xa4\x09\x30\xb1\x02", ""),
    SHAPE("items to be mended", "\x05\x01\x75\x08\x95\x01", "\x80\x24\x81\x02", ""),
    SHAPE("an end too many", "", "\xa1\x00\xc0", "\xc0"),
    SHAPE("reserved items", "", "\xc4", ""),
    SHAPE("long items", "", "\xfe\x01\x00\x00", ""),
};

#define SHAPES (sizeof shapes / sizeof *shapes)

/* A descriptor of a shape, with at most so many bytes; how many it has. */
static size_t make(const struct shape *shape, uint8_t *bytes, size_t most)
{
    size_t length = shape->front_length;
    memcpy(bytes, shape->front, length);
    for (; length + shape->again_length + shape->behind_length <= most; length += shape->again_length)
        memcpy(bytes + length, shape->again, shape->again_length);
    memcpy(bytes + length, shape->behind, shape->behind_length);
    return length + shape->behind_length;
}

static const uint8_t *descriptor;
static size_t descriptor_length;
static struct hidreport_options options;

#define OF descriptor, descriptor_length, options
#define WAY OF, HIDREPORT_INPUT
#define BARE descriptor, descriptor_length
#define REPAIR OF, HIDREPORT_MEND_CUT_SHORT

#define CALL(name, ...) \
    static void name(void) { hidreport_##name(__VA_ARGS__); }

static const uint8_t report[1] = {1};
CALL(reports, WAY, NULL, 0)
CALL(describe, WAY, NULL, 0)
CALL(find, WAY, report, 1, NULL, 0)
CALL(groups, WAY, NULL, 0)
CALL(group_usage, WAY, 0, 0, NULL, 0)
CALL(group_field, WAY, 0, 0, NULL, 0)
CALL(report_with, WAY, true, 1, NULL, 0)
CALL(field_numbered, OF, 0, NULL, 0)
CALL(field_for, WAY, false, 0, 0x10038, NULL, 0)
CALL(usages, OF, 0, NULL, 0)
CALL(describe_usages, WAY, NULL, 0)
CALL(find_usages, WAY, report, 1, NULL, 0)
CALL(collections, OF, 0, NULL, 0)
CALL(collection_usages, OF, 0, 0, NULL, 0)
CALL(describe_collections, WAY, NULL, 0)
CALL(describe_collection_usages, WAY, NULL, 0)
CALL(is_alike, BARE, BARE, options)
CALL(message, OF, NULL, 0)
CALL(items, BARE, NULL, 0)
CALL(front_items, BARE, NULL, 0)
CALL(rebuild, BARE, NULL, 0)
CALL(items_message, BARE, NULL, 0)
CALL(repair, REPAIR, NULL, 0)
CALL(changes, REPAIR, NULL, 0)
CALL(repair_message, REPAIR, NULL, 0)

/* What would be too fast: a call for each so many bytes. */
static void spoilt(void)
{
    for (size_t i = 0; i < descriptor_length; i += 64)
        hidreport_front_items(BARE, NULL, 0);
}

#define NAMED(name) { #name, name }

static const struct {
    const char *name;
    void (*ask)(void);
} calls[] = {
    NAMED(reports), NAMED(describe), NAMED(find), NAMED(groups), NAMED(group_usage),
    NAMED(group_field), NAMED(report_with), NAMED(field_numbered), NAMED(field_for), NAMED(usages),
    NAMED(describe_usages), NAMED(find_usages), NAMED(collections), NAMED(collection_usages),
    NAMED(describe_collections), NAMED(describe_collection_usages), NAMED(is_alike), NAMED(message),
    NAMED(items), NAMED(front_items), NAMED(rebuild), NAMED(items_message), NAMED(repair),
    NAMED(changes), NAMED(repair_message), NAMED(spoilt),
};

#define CALLS (sizeof calls / sizeof *calls - 1)

/* What no call finds again: who goes over all of it leaves nothing else in the near caches. */
static volatile uint8_t elsewhere[8 << 20];

static double now(void)
{
    struct timespec time;
    clock_gettime(CLOCK_PROCESS_CPUTIME_ID, &time);
    return (double)time.tv_sec + (double)time.tv_nsec * 1e-9;
}

/* The least time of a few calls, before each of which the caches are emptied: what a long call writes
 * doesn't stay in them either, so without that it would seem to grow where memory is slow. */
static double time_of(void (*ask)(void), const uint8_t *bytes, size_t length)
{
    double least = 0;
    descriptor = bytes, descriptor_length = length;
    for (int i = 0; i < 4; i++) {
        for (size_t at = 0; at < sizeof elsewhere; at += 64)
            elsewhere[at]++;
        double begun = now();
        ask();
        double own = now() - begun;
        if (i == 0 || own < least)
            least = own;
    }
    return least;
}

/* How fast a call grows over these two; more looks where it seems fast, since what else the machine does
 * costs a long call more than a short one. */
static double growth_of(void (*ask)(void), const uint8_t *small, size_t small_length,
                        const uint8_t *large, size_t large_length)
{
    double growth = 0;
    for (int look = 0; look < LOOKS; look++) {
        double few = time_of(ask, small, small_length), many = time_of(ask, large, large_length);
        double own = log((many + 1e-7) / (few + 1e-7))
                     / log((double)large_length / (double)small_length);
        if (look == 0 || own < growth)
            growth = own;
        if (growth <= MOST)
            break;
    }
    return growth;
}

/* Lets malloc keep what it was given back: pages that the system hands out anew for each long call take
 * time that isn't the library's. */
static void keep_memory(void)
{
#ifdef __GLIBC__
    mallopt(M_MMAP_MAX, 0);
    mallopt(M_TRIM_THRESHOLD, 1 << 30);
#endif
}

/* With a word it looks at the spoilt call alone, of one shape. */
int main(int argc, char **argv)
{
    static uint8_t small[SHORT], large[LONG];
    unsigned looked_at = 0, wrong = 0;

    (void)argv;
    keep_memory();
    for (size_t s = argc > 1 ? SHAPES - 1 : 0; s < SHAPES; s++) {
        size_t few = make(&shapes[s], small, SHORT), many = make(&shapes[s], large, LONG);
        for (unsigned way = 0; way < 2; way++) {
            options = (struct hidreport_options){way ? HIDREPORT_NO_LIMIT : HIDREPORT_DEFAULT_LIMIT, way,
                                                 way};
            for (size_t c = argc > 1 ? CALLS : 0; c < CALLS + (argc > 1); c++, looked_at++) {
                double growth = growth_of(calls[c].ask, small, few, large, many);
                if (growth <= MOST)
                    continue;
                printf("growth: %s: %s by options %u grows as bytes to the power of %.2f\n",
                       shapes[s].name, calls[c].name, way, growth);
                wrong++;
            }
        }
    }
    if (!wrong)
        printf("growth: of %u pairs of times none grows faster than bytes to the power of 1.3\n",
               looked_at);
    return wrong != 0;
}
