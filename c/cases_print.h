/* How the answers to the questions of c/cases.txt are printed. */
#include "cases_words.h"

/* As many as there is room for. */
static size_t print_answer_within(struct hidreport_answer answer, size_t room)
{
    printf("  count %zu offset %zu", answer.count, answer.offset);
    printf(" %s\n", words_of(answer.status));
    return answer.count < room ? answer.count : room;
}

/* As many as the arrays here have room for. */
static size_t print_answer(struct hidreport_answer answer)
{
    return print_answer_within(answer, ROOM);
}

static void print_measures(const struct hidreport_measures *m)
{
    printf("    logical %" PRId32 "..%" PRId32, m->logical_minimum, m->logical_maximum);
    printf(" physical %d %" PRId32, m->has_physical_minimum, m->physical_minimum);
    printf("..%d %" PRId32, m->has_physical_maximum, m->physical_maximum);
    printf(" unit %d %08" PRIx32, m->has_unit, m->unit);
    printf(" exponent %d %" PRId32, m->has_unit_exponent, m->unit_exponent);
}

static void print_flags(const struct hidreport_flags *g)
{
    printf(" flags %d%d%d", g->is_relative, g->wraps, g->is_nonlinear);
    printf("%d%d", g->has_no_preferred_state, g->has_null_state);
    printf("%d%d\n", g->is_buffered_bytes, g->is_volatile);
}

static void print_field(const struct hidreport_field *f)
{
    const struct hidreport_usages *u = &f->usages;
    printf("  #%" PRIu32 " %s", f->number, kind_of(f->kind));
    printf(" bits %zu..%zu values %zu", f->first_bit, f->end_bit, f->value_count);
    printf(" usages %zu %08" PRIx32 "..%08" PRIx32 " %d", u->count, u->first, u->last, u->is_range);
    printf(" collections %zu %" PRIu32, f->collections.count, f->collections.innermost);
    printf(" report %d %u\n", f->has_report_id, f->report_id);
    print_measures(&f->measures);
    print_flags(&f->flags);
}

static void print_group(const struct hidreport_group *g)
{
    printf("  %s bits %zu, %zu each", kind_of(g->kind), g->first_bit, g->element_width);
    printf(" elements %zu fields %zu", g->element_count, g->field_count);
    printf(" usage %08" PRIx32, g->usage);
    printf(" collections %zu %" PRIu32, g->collections.count, g->collections.innermost);
    printf(" report %d %u\n", g->has_report_id, g->report_id);
    print_measures(&g->measures);
    print_flags(&g->flags);
}

/* So much text, or so many bytes as hexadecimal numbers. */
static void print_first(size_t count, const uint8_t *written, const char *form)
{
    printf("  ");
    for (size_t i = 0; i < count; i++)
        printf(form, written[i]);
    printf("\n");
}

static void print_written(struct hidreport_answer answer, const uint8_t *written, const char *form)
{
    print_first(print_answer(answer), written, form);
}

static void print_report(const struct hidreport_report *r)
{
    printf("  id %d %u bits %zu bytes %zu fields %zu\n", r->has_id, r->id, r->size_in_bits,
           r->size_in_bytes, r->field_count);
}

static void print_choice(struct hidreport_choice choice)
{
    printf("  value %" PRId64 " %d\n", choice.value, choice.is_there);
}

static void print_fraction(struct hidreport_fraction f)
{
    printf("  fraction %" PRId64 " %" PRId64 " %d\n", f.numerator, f.denominator, f.is_there);
}

static void print_items(size_t count, const struct hidreport_item *items)
{
    for (size_t i = 0; i < count; i++)
        printf("  offset %zu size %zu\n", items[i].offset, items[i].size);
}
