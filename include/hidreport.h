/* HID report descriptors read, values taken from reports and written to them (USB HID 1.11).
 * Licence: MIT (LICENSE).
 *
 * The functions keep nothing between two calls, and may be called from any thread at once. A
 * pointer to bytes or to an array goes with its length; it may be NULL where that is 0. A caller's
 * array that is too short gets as much as it has room for, and nothing behind it: the answer's
 * count says how much there is, so that a call with no room tells how much to ask for. What is
 * written and what is read must not overlap. */
#ifndef HIDREPORT_H
#define HIDREPORT_H

#include <stdbool.h>
#include <stddef.h>
#include <stdint.h>

/* The version of this header: the Rust crate's whose port this is, and the stage of the port. */
#define HIDREPORT_VERSION_MAJOR 0
#define HIDREPORT_VERSION_MINOR 6
#define HIDREPORT_VERSION_PATCH 0
#define HIDREPORT_VERSION_STAGE 10

/* The same as one number, a byte each, the first as the highest. */
#define HIDREPORT_VERSION \
    (HIDREPORT_VERSION_MAJOR * 0x1000000 + HIDREPORT_VERSION_MINOR * 0x10000 \
     + HIDREPORT_VERSION_PATCH * 0x100 + HIDREPORT_VERSION_STAGE)

#ifdef __cplusplus
extern "C" {
#endif

/* `status`: 0, or why there is no answer. */
enum hidreport_status {
    HIDREPORT_ACCEPTED = 0,
    /* an item of the descriptor can't be read, or has no meaning where it stands */
    HIDREPORT_INVALID_DATA = 1,
    /* a report's end or a count passes what can be counted, or a field lies outside the report's
     * bytes */
    HIDREPORT_OUT_OF_BOUNDS = 2,
    /* the report's first byte isn't the id that the field is read by */
    HIDREPORT_MISMATCHING_REPORT_ID = 3,
    /* memory was refused */
    HIDREPORT_OUT_OF_MEMORY = 4,
    /* with the item at `offset` the descriptor lists more than the limit of the options, or with a
     * limit it has more than 65536 bytes, as given or repaired: then this is `offset` */
    HIDREPORT_BUDGET_EXCEEDED = 5,
    /* `push` or `usages` of the options is no number of its enum, or `mends` no sum of its own */
    HIDREPORT_UNKNOWN_OPTION = 6,
    /* so many bits don't hold the number, signed or unsigned as the field is */
    HIDREPORT_DOES_NOT_FIT = 7,
    /* there are more or fewer numbers than the field has values */
    HIDREPORT_WRONG_COUNT = 8
};

/* `direction`; nothing is announced in any other */
enum hidreport_direction { HIDREPORT_INPUT = 0, HIDREPORT_OUTPUT = 1, HIDREPORT_FEATURE = 2 };

/* `kind` of a field */
enum hidreport_kind { HIDREPORT_VARIABLE = 0, HIDREPORT_ARRAY = 1, HIDREPORT_CONSTANT = 2 };

/* `kind` of a collection (Section 6.2.2.6); 0x07 to 0x7f are reserved, 0x80 to 0xff are the
 * vendor's */
enum hidreport_collection_kind {
    HIDREPORT_PHYSICAL = 0,
    HIDREPORT_APPLICATION = 1,
    HIDREPORT_LOGICAL = 2,
    HIDREPORT_REPORT = 3,
    HIDREPORT_NAMED_ARRAY = 4,
    HIDREPORT_USAGE_SWITCH = 5,
    HIDREPORT_USAGE_MODIFIER = 6
};

/* `push`: what a Push keeps for its Pop (Section 6.2.2.7) */
enum hidreport_push {
    HIDREPORT_PUSH_ALL = 0,    /* global and local items, as the Rust crate has it */
    HIDREPORT_PUSH_GLOBALS = 1 /* global items alone, as Linux has it */
};

/* `usages`: by which rule an item finds its usages (Section 6.2.2.8) */
enum hidreport_usages_by {
    HIDREPORT_USAGES_STANDARD = 0, /* by the letter of the standard, as the Rust crate has it */
    HIDREPORT_USAGES_HOSTS = 1,    /* as hosts read them, by Linux's rules */
    /* all as Linux reads it: what Linux takes is mended first, at the offsets of the bytes that are
     * given; what it refuses is HIDREPORT_INVALID_DATA with its reason. For this `push` has to be
     * HIDREPORT_PUSH_GLOBALS, and it is none for a repair. */
    HIDREPORT_USAGES_LINUX = 2
};

/* `mends`: what a repair mends besides, one of these or the sum */
enum hidreport_mends {
    HIDREPORT_MEND_DEFAULT = 0, /* nothing besides */
    /* an item that is cut short is left out, with all bytes from there on; Linux refuses it */
    HIDREPORT_MEND_CUT_SHORT = 1,
    /* a negative maximum is written as the same data without a sign, where no negative minimum is
     * in force; Linux always reads it so */
    HIDREPORT_MEND_UNSIGNED_MAXIMA = 2
};

/* `reason` of a change */
enum hidreport_reason {
    HIDREPORT_NO_DATA = 0,           /* an item that needs a data byte had none: its data is 0 */
    HIDREPORT_UNKNOWN_MAIN_ITEM = 1, /* a main item of an unknown tag is left out */
    HIDREPORT_ENDED_LOCAL = 2,       /* a local item of such a main item is left out with it */
    HIDREPORT_NO_USAGE = 3,          /* a data item without a usage is padding */
    HIDREPORT_UNSIGNED_MAXIMUM = 4,  /* a maximum that was meant unsigned is written so */
    HIDREPORT_CUT_SHORT = 5          /* an item was cut short, and is left out */
};

/* How a descriptor is read: HIDREPORT_AS_LINUX or HIDREPORT_DEFAULTS, or by parts. */
struct hidreport_options {
    /* The most that may be listed: a field counts 1, with 1 for each usage of an array, for each
     * collection around the field and for each usage of that; so does a collection, with 1 for each
     * of its usages. */
    size_t limit;
    uint32_t push;   /* enum hidreport_push */
    uint32_t usages; /* enum hidreport_usages_by */
};

/* A limit of 65536: a few bytes can announce 2^32 fields. */
#define HIDREPORT_DEFAULT_LIMIT 65536

/* No limit: a descriptor takes what memory it asks for, up to all that there is. */
#define HIDREPORT_NO_LIMIT SIZE_MAX

/* HIDREPORT_AS_LINUX is what a Linux machine reads in a descriptor, for remappers, recorders and
 * tests of devices; HIDREPORT_DEFAULTS is the letter of the standard, for printers and compilers.
 * `..._REPAIR_DEFAULTS` are for a repair, and for reading what it writes: a Push keeps what Linux
 * keeps, and usages are those that Linux reads. */
#ifdef __cplusplus
#define HIDREPORT_DEFAULTS \
    (hidreport_options{HIDREPORT_DEFAULT_LIMIT, HIDREPORT_PUSH_ALL, HIDREPORT_USAGES_STANDARD})
#define HIDREPORT_REPAIR_DEFAULTS \
    (hidreport_options{HIDREPORT_DEFAULT_LIMIT, HIDREPORT_PUSH_GLOBALS, HIDREPORT_USAGES_HOSTS})
#define HIDREPORT_AS_LINUX \
    (hidreport_options{HIDREPORT_DEFAULT_LIMIT, HIDREPORT_PUSH_GLOBALS, HIDREPORT_USAGES_LINUX})
#else
#define HIDREPORT_DEFAULTS                                                                    \
    ((struct hidreport_options){HIDREPORT_DEFAULT_LIMIT, HIDREPORT_PUSH_ALL,                  \
                                HIDREPORT_USAGES_STANDARD})
#define HIDREPORT_REPAIR_DEFAULTS                                                             \
    ((struct hidreport_options){HIDREPORT_DEFAULT_LIMIT, HIDREPORT_PUSH_GLOBALS,              \
                                HIDREPORT_USAGES_HOSTS})
#define HIDREPORT_AS_LINUX                                                                    \
    ((struct hidreport_options){HIDREPORT_DEFAULT_LIMIT, HIDREPORT_PUSH_GLOBALS,              \
                                HIDREPORT_USAGES_LINUX})
#endif

struct hidreport_answer {
    size_t count;    /* how many there are, whether there was room or not; 0 where refused */
    size_t offset;   /* how many bytes stand before the refused item; 0 for a refusal without one */
    uint32_t status; /* enum hidreport_status */
};

/* A usage has its page in the upper 16 bits. */
struct hidreport_usages {
    size_t count;   /* 1, those that an array's values choose among, 0 of padding */
    uint32_t first; /* 0 where there is none */
    uint32_t last;
    bool is_range; /* a minimum and a maximum gave them */
};

/* A number whose flag is off is 0. */
struct hidreport_measures {
    int32_t logical_minimum; /* values are signed where it is below 0 */
    int32_t logical_maximum;
    int32_t physical_minimum;
    int32_t physical_maximum;
    uint32_t unit;
    int32_t unit_exponent;
    bool has_physical_minimum;
    bool has_physical_maximum;
    bool has_unit;
    bool has_unit_exponent;
};

struct hidreport_collections {
    size_t count;       /* how many the field lies in; none of padding */
    uint32_t innermost; /* the number of the innermost one, counted over the descriptor */
};

/* The flags of the field's item (Section 6.2.2.5), all off for padding. */
struct hidreport_flags {
    bool is_relative;
    bool wraps;
    bool is_nonlinear;
    bool has_no_preferred_state;
    bool has_null_state;
    bool is_buffered_bytes;
    bool is_volatile; /* off in an input report */
};

struct hidreport_field {
    uint32_t number;    /* counted over the descriptor */
    uint32_t kind;      /* enum hidreport_kind */
    size_t first_bit;   /* in its report, the byte of the id counted */
    size_t end_bit;     /* the bit behind the last */
    size_t value_count; /* 1, as many as an array has, 0 of padding */
    struct hidreport_usages usages;
    struct hidreport_measures measures;
    struct hidreport_collections collections;
    struct hidreport_flags flags;
    bool has_report_id; /* only a report that begins with `report_id` is read */
    uint8_t report_id;
};

/* The fields that one item makes, side by side (Section 6.2.2.4), said once for all of them. */
struct hidreport_group {
    uint32_t kind;        /* enum hidreport_kind, of each of its fields */
    size_t first_bit;     /* in its report, the byte of the id counted */
    size_t element_width; /* in bits */
    size_t element_count; /* side by side */
    size_t field_count;   /* a variable field is one element; an array and padding are all */
    uint32_t usage;       /* of the first field; 0 where there is none */
    struct hidreport_measures measures;
    struct hidreport_collections collections;
    struct hidreport_flags flags;
    bool has_report_id; /* its report begins with `report_id`, of padding too */
    uint8_t report_id;
};

/* Values side by side in a report, all of one width and sign. */
struct hidreport_run {
    size_t first_bit;     /* in its report, the byte of the id counted */
    size_t element_width; /* in bits */
    size_t value_count;
    bool is_signed;
    bool has_report_id; /* only a report that begins with `report_id` is read */
    uint8_t report_id;
};

struct hidreport_report {
    size_t size_in_bits;  /* the byte of the id counted */
    size_t size_in_bytes; /* rounded up */
    size_t field_count;   /* padding counted */
    bool has_id;          /* the report begins with `id` */
    uint8_t id;
};

struct hidreport_collection {
    uint32_t number; /* counted over the descriptor */
    uint32_t kind;   /* enum hidreport_collection_kind, or another number */
    size_t usage_count;
    uint32_t usage; /* the first of them; 0 where there is none */
};

struct hidreport_value {
    int64_t number;
    uint32_t status; /* enum hidreport_status: 0, 2 or 3 */
};

struct hidreport_usage {
    uint32_t usage; /* 0 where there is none */
    bool is_meant;  /* the value, or the name, stands for one */
};

struct hidreport_page {
    uint16_t page; /* 0 where there is none */
    bool is_there;
};

struct hidreport_choice {
    int64_t value; /* 0 where there is none */
    bool is_there;
};

/* A number that isn't whole, exactly; not always in its lowest terms. */
struct hidreport_fraction {
    int64_t numerator;   /* 0 where there is none */
    int64_t denominator; /* above 0; 0 where there is none */
    bool is_there;
};

struct hidreport_likeness {
    size_t offset;    /* how many bytes stand before the refused item; 0 without one */
    uint32_t status;  /* enum hidreport_status: 0, or why one of the two isn't read */
    bool is_of_other; /* it is the other one, and the first is read */
    bool is_alike;    /* off where one isn't read */
};

struct hidreport_item {
    size_t offset; /* how many bytes of the descriptor stand before the item */
    size_t size;   /* how many it has, its header among them */
};

/* A place where something else stands in the repaired descriptor. What stands there now begins in
 * the repaired bytes at `offset`, less what `stood` and more what `stands` has in the changes
 * before. */
struct hidreport_change {
    size_t offset;   /* how many bytes of the descriptor stand before it */
    size_t stood;    /* how many bytes stood there, an item and all of it */
    size_t stands;   /* how many stand there now; 0 where it is left out */
    uint32_t reason; /* enum hidreport_reason */
};

/* The version of the library: HIDREPORT_VERSION of its own header. */
uint32_t hidreport_version(void);

/* The reports that a descriptor announces in a direction, in the order of their first fields. No
 * field is listed for it, so that it takes the memory of hidreport_groups. */
struct hidreport_answer hidreport_reports(const uint8_t *descriptor, size_t length,
                                          struct hidreport_options options, uint32_t direction,
                                          struct hidreport_report *reports, size_t room);

/* The fields that a descriptor announces in a direction, in the order of its reports and of their
 * bits. */
struct hidreport_answer hidreport_describe(const uint8_t *descriptor, size_t length,
                                           struct hidreport_options options, uint32_t direction,
                                           struct hidreport_field *fields, size_t room);

/* The fields of the report that these bytes are of. It depends on nothing of the report but its
 * first byte. */
struct hidreport_answer hidreport_find(const uint8_t *descriptor, size_t length,
                                       struct hidreport_options options, uint32_t direction,
                                       const uint8_t *report, size_t report_length,
                                       struct hidreport_field *fields, size_t room);

/* The groups of the fields that a descriptor announces in a direction, in the order of its reports
 * and of their bits, one for each item that makes fields: laid out, they are the fields that
 * hidreport_describe lists. Neither these are listed nor usages between a minimum and a maximum,
 * theirs or those of collections, so that with HIDREPORT_NO_LIMIT, too, no more memory is taken than
 * for the descriptor's items and lists of the collections around them. */
struct hidreport_answer hidreport_groups(const uint8_t *descriptor, size_t length,
                                         struct hidreport_options options, uint32_t direction,
                                         struct hidreport_group *groups, size_t room);

/* The usage at place `index` of group `group` of these, both counted from 0: that of variable field
 * `index`, the last one where there are fewer, or of those that an array's values choose among, the
 * last one behind these; 0 where there is none, as of padding and behind the last variable field.
 * One, or none where there is no such group. */
struct hidreport_answer hidreport_group_usage(const uint8_t *descriptor, size_t length,
                                              struct hidreport_options options,
                                              uint32_t direction, size_t group, size_t index,
                                              uint32_t *usage, size_t room);

/* Field `index` of group `group` of these, likewise, as hidreport_describe lists it: one, or none
 * where there is no such field or group. Memory is taken for the usages of an array. */
struct hidreport_answer hidreport_group_field(const uint8_t *descriptor, size_t length,
                                              struct hidreport_options options,
                                              uint32_t direction, size_t group, size_t index,
                                              struct hidreport_field *field, size_t room);

/* The report of a direction with this id, or without one, where `has_id` is off: one, or none where
 * there is no such report. */
struct hidreport_answer hidreport_report_with(const uint8_t *descriptor, size_t length,
                                              struct hidreport_options options,
                                              uint32_t direction, bool has_id, uint8_t id,
                                              struct hidreport_report *report, size_t room);

/* The field with this number, in whichever direction: one, or none where no field has it. */
struct hidreport_answer hidreport_field_numbered(const uint8_t *descriptor, size_t length,
                                                 struct hidreport_options options,
                                                 uint32_t number, struct hidreport_field *field,
                                                 size_t room);

/* The first field with this usage of the report of a direction with this id, or without one, where
 * `has_id` is off: one, or none where there is no such report, or no field of it has the usage. */
struct hidreport_answer hidreport_field_for(const uint8_t *descriptor, size_t length,
                                            struct hidreport_options options, uint32_t direction,
                                            bool has_id, uint8_t id, uint32_t usage,
                                            struct hidreport_field *field, size_t room);

/* The usages of the field with this number, in order; none where no field has it. Here and below
 * the options are those by which the field was described. */
struct hidreport_answer hidreport_usages(const uint8_t *descriptor, size_t length,
                                         struct hidreport_options options, uint32_t field,
                                         uint32_t *usages, size_t room);

/* The usages of all fields that hidreport_describe lists, in their order: those of a field, as many
 * as its `usages.count`, behind those of the field before. */
struct hidreport_answer hidreport_describe_usages(const uint8_t *descriptor, size_t length,
                                                  struct hidreport_options options,
                                                  uint32_t direction, uint32_t *usages,
                                                  size_t room);

/* The same of the fields that hidreport_find finds. */
struct hidreport_answer hidreport_find_usages(const uint8_t *descriptor, size_t length,
                                              struct hidreport_options options,
                                              uint32_t direction, const uint8_t *report,
                                              size_t report_length, uint32_t *usages,
                                              size_t room);

/* The collections that the field with this number lies in, outermost first. */
struct hidreport_answer hidreport_collections(const uint8_t *descriptor, size_t length,
                                              struct hidreport_options options, uint32_t field,
                                              struct hidreport_collection *collections,
                                              size_t room);

/* All usages of collection `index` of these, counted from 0. */
struct hidreport_answer hidreport_collection_usages(const uint8_t *descriptor, size_t length,
                                                    struct hidreport_options options,
                                                    uint32_t field, size_t index, uint32_t *usages,
                                                    size_t room);

/* The collections of all fields that hidreport_describe lists, in their order: those of a field,
 * outermost first, as many as its `collections.count`, behind those of the field before. */
struct hidreport_answer hidreport_describe_collections(const uint8_t *descriptor, size_t length,
                                                       struct hidreport_options options,
                                                       uint32_t direction,
                                                       struct hidreport_collection *collections,
                                                       size_t room);

/* The usages of all these collections, in their order: those of a collection, as many as its
 * `usage_count`, behind those of the one before. */
struct hidreport_answer hidreport_describe_collection_usages(const uint8_t *descriptor,
                                                             size_t length,
                                                             struct hidreport_options options,
                                                             uint32_t direction, uint32_t *usages,
                                                             size_t room);

/* Whether two descriptors, read by these options, announce the same: the same reports in each
 * direction, with fields that are equal in all parts. Their bytes may differ. */
struct hidreport_likeness hidreport_is_alike(const uint8_t *descriptor, size_t length,
                                             const uint8_t *other, size_t other_length,
                                             struct hidreport_options options);

/* What a descriptor is refused for, without a zero at the end; no text where it is accepted, and
 * with HIDREPORT_OUT_OF_MEMORY and HIDREPORT_UNKNOWN_OPTION. */
struct hidreport_answer hidreport_message(const uint8_t *descriptor, size_t length,
                                          struct hidreport_options options, uint8_t *text,
                                          size_t room);

/* The items of a descriptor, short and long. */
struct hidreport_answer hidreport_items(const uint8_t *descriptor, size_t length,
                                        struct hidreport_item *items, size_t room);

/* The items before the first that can't be read, or all: never refused. Where hidreport_items
 * refuses the bytes, the refused item stands behind the last of these. It takes no memory. */
struct hidreport_answer hidreport_front_items(const uint8_t *descriptor, size_t length,
                                              struct hidreport_item *items, size_t room);

/* A descriptor written anew: its items in order, each in its shortest spelling, without long and
 * reserved ones. */
struct hidreport_answer hidreport_rebuild(const uint8_t *descriptor, size_t length, uint8_t *bytes,
                                          size_t room);

/* What hidreport_items and hidreport_rebuild refuse bytes for, as hidreport_message says of the
 * others. */
struct hidreport_answer hidreport_items_message(const uint8_t *descriptor, size_t length,
                                                uint8_t *text, size_t room);

/* A descriptor that is read by these options, made of one that hosts accept, as Linux reads it: the
 * same where it is read as it is, and no maximum is to be mended. `mends` is a sum of enum
 * hidreport_mends. Refused is the first fault that stays, at its offset in the bytes that were
 * given. */
struct hidreport_answer hidreport_repair(const uint8_t *descriptor, size_t length,
                                         struct hidreport_options options, uint32_t mends,
                                         uint8_t *bytes, size_t room);

/* What hidreport_repair changes, in the order of the offsets: none where the descriptor stays as it
 * is. */
struct hidreport_answer hidreport_changes(const uint8_t *descriptor, size_t length,
                                          struct hidreport_options options, uint32_t mends,
                                          struct hidreport_change *changes, size_t room);

/* What these two refuse a descriptor for, as hidreport_message says of the others. */
struct hidreport_answer hidreport_repair_message(const uint8_t *descriptor, size_t length,
                                                 struct hidreport_options options, uint32_t mends,
                                                 uint8_t *text, size_t room);

/* Value `index` of a field, counted from 0, in a report with these bytes. One without bits or with
 * more than 32 is HIDREPORT_OUT_OF_BOUNDS: a copy of the field whose `end_bit` is its `first_bit`
 * plus 32 has the low 32 bits, which hosts read. It takes no memory, and reads nothing but the
 * report's bytes, whatever numbers the field has. */
struct hidreport_value hidreport_value(const struct hidreport_field *field, const uint8_t *report,
                                       size_t report_length, size_t index);

/* All values of a field in such a report, in order: none written where one of them is refused. */
struct hidreport_answer hidreport_values(const struct hidreport_field *field, const uint8_t *report,
                                         size_t report_length, int64_t *values, size_t room);

/* All values of these fields, as hidreport_find lists them, in such a report, in order: those of
 * a field, as many as its `value_count`, behind those of the field before. None written where one
 * of them is refused: the first refusal counts. It takes no memory. */
struct hidreport_answer hidreport_read(const struct hidreport_field *fields, size_t field_count,
                                       const uint8_t *report, size_t report_length,
                                       int64_t *values, size_t room);

/* The values of these fields that the bytes have, in order, up to the first that they don't have, or
 * that has more than 32 bits: what hosts do with a report that is cut short. Bytes that begin with
 * another id than one of the fields has are HIDREPORT_MISMATCHING_REPORT_ID. It takes no memory. */
struct hidreport_answer hidreport_read_available(const struct hidreport_field *fields,
                                                 size_t field_count, const uint8_t *report,
                                                 size_t report_length, int64_t *values,
                                                 size_t room);

/* What these fields' values are read by, for many reports of theirs: values of one width and sign
 * that lie side by side are one run, and padding is none. Room for as many runs as fields is enough.
 * It takes no memory. */
struct hidreport_answer hidreport_prepare(const struct hidreport_field *fields, size_t field_count,
                                          struct hidreport_run *runs, size_t room);

/* What hidreport_read gives of the fields that these runs were prepared of, sooner. It takes no
 * memory, and reads nothing but the report's bytes, whatever numbers the runs have. */
struct hidreport_answer hidreport_read_prepared(const struct hidreport_run *runs, size_t run_count,
                                                const uint8_t *report, size_t report_length,
                                                int64_t *values, size_t room);

/* The usage that a value of an array stands for, of the usages that hidreport_usages lists for the
 * field: none outside the logical bounds, as where no key is held. It takes no memory. */
struct hidreport_usage hidreport_usage_of(const struct hidreport_field *field, int64_t value,
                                          const uint32_t *usages, size_t usage_count);

/* The value of an array that stands for a usage, of the same: the least where the usage is listed
 * more than once, none where it isn't listed, or only behind the logical maximum. It takes no
 * memory. */
struct hidreport_choice hidreport_value_of(const struct hidreport_field *field, uint32_t usage,
                                           const uint32_t *usages, size_t usage_count);

/* A value of an array that stands for no usage, to be written where no key is held: one outside the
 * logical bounds where its bits hold one, 0 if that is, else the one below them, else the one
 * above; else the least within them that has no usage. It takes no memory. */
struct hidreport_choice hidreport_null_value(const struct hidreport_field *field);

/* What a value of a variable field stands for, in the field's unit times ten to its exponent
 * (Section 6.2.2.7): the logical bounds stand for the physical ones, and a value lies on the line
 * through both. Physical bounds that are both 0 or unset are the logical ones. None where the
 * logical minimum isn't below the maximum, and where 64 bits don't hold the numerator, which they
 * do for each value within the bounds. It takes no memory. */
struct hidreport_fraction hidreport_physical(const struct hidreport_field *field, int64_t value);

/* The same, between -1, the logical minimum, and 1, the logical maximum. */
struct hidreport_fraction hidreport_normalized(const struct hidreport_field *field, int64_t value);

/* Writes value `index` of a field, counted from 0, into a report with these bytes: its bits become
 * those of the number, and no other bit changes. The answer is 0 or, with the bytes as they were,
 * HIDREPORT_OUT_OF_BOUNDS or HIDREPORT_MISMATCHING_REPORT_ID, as of hidreport_value, or
 * HIDREPORT_DOES_NOT_FIT; a number that its bits hold is written, whatever the logical bounds are.
 * It takes no memory, and reads and writes nothing but the report's bytes, whatever numbers the
 * field has. */
uint32_t hidreport_insert(const struct hidreport_field *field, uint8_t *report,
                          size_t report_length, size_t index, int64_t value);

/* Writes all values of a field, in order, likewise: none where one of them is refused, or with
 * HIDREPORT_WRONG_COUNT where there are more or fewer than the field has. */
uint32_t hidreport_insert_all(const struct hidreport_field *field, uint8_t *report,
                              size_t report_length, const int64_t *values, size_t count);

/* Writes all values of these fields, as hidreport_find lists them, in order: what hidreport_read
 * gives for the new bytes. None is written where one is refused: with HIDREPORT_WRONG_COUNT where
 * there are more or fewer than the fields have, then as of hidreport_read, then where a field begins
 * in the byte of its report's id, then with HIDREPORT_DOES_NOT_FIT. It takes no memory. */
uint32_t hidreport_write(const struct hidreport_field *fields, size_t field_count, uint8_t *report,
                         size_t report_length, const int64_t *values, size_t count);

/* What hidreport_write writes by the fields that these runs were prepared of, sooner. It takes no
 * memory, and reads and writes nothing but the report's bytes, whatever numbers the runs have. */
uint32_t hidreport_write_prepared(const struct hidreport_run *runs, size_t run_count,
                                  uint8_t *report, size_t report_length, const int64_t *values,
                                  size_t count);

/* The bytes of a report without values, which hidreport_insert may fill: its id, where it has one,
 * and zeros. It takes no memory. */
struct hidreport_answer hidreport_blank(const struct hidreport_report *report, uint8_t *bytes,
                                        size_t room);

/* The name of a usage in the HID Usage Tables, without a zero at the end; no text where they name
 * no such usage. */
struct hidreport_answer hidreport_usage_name(uint32_t usage, uint8_t *text, size_t room);

/* The name of a usage page, likewise; those of vendors have names by their numbers. */
struct hidreport_answer hidreport_page_name(uint16_t page, uint8_t *text, size_t room);

/* The usage that has this name, letter for letter; of several pages that of the lowest, of those of
 * vendors FF00. It takes no memory. */
struct hidreport_usage hidreport_usage_by_name(const uint8_t *name, size_t length);

/* The usage of a page that has this name, which stands once on a page. It takes no memory. */
struct hidreport_usage hidreport_usage_on_page(uint16_t page, const uint8_t *name, size_t length);

/* The usage page that has this name. It takes no memory. */
struct hidreport_page hidreport_page_by_name(const uint8_t *name, size_t length);

/* The standard's name of the item that these bytes begin with, as of the bytes from an item's
 * offset on; no text where it can't be read. It takes no memory. */
struct hidreport_answer hidreport_item_name(const uint8_t *item, size_t length, uint8_t *text,
                                            size_t room);

/* The flags of the Input, Output or Feature that these bytes begin with, as words with a comma
 * between two; no text of another item. */
struct hidreport_answer hidreport_flag_words(const uint8_t *item, size_t length, uint8_t *text,
                                             size_t room);

/* The standard's name of a kind of collection; no text for a number above 255. It takes no
 * memory. */
struct hidreport_answer hidreport_collection_name(uint32_t kind, uint8_t *text, size_t room);

#ifdef __cplusplus
}
#endif

#endif
