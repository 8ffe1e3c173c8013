/* Reports read and written by fields that no descriptor has, and with little room. */
typedef void saying(int is_right, const char *what);

/* Fields of numbers that no descriptor has, by which nothing can be read or written: the bits end
 * past what can be counted, begin behind their end, are too many or none, or lie behind the
 * bytes. */
static const struct hidreport_field no_fields[] = {
    {.first_bit = SIZE_MAX, .end_bit = SIZE_MAX, .value_count = 1},
    {.first_bit = SIZE_MAX - 7, .end_bit = SIZE_MAX, .value_count = SIZE_MAX},
    {.first_bit = 0, .end_bit = SIZE_MAX, .value_count = 1},
    {.first_bit = 56, .end_bit = SIZE_MAX, .value_count = SIZE_MAX / 2},
    {.first_bit = 8, .end_bit = 0, .value_count = 1},
    {.first_bit = 8, .end_bit = 16, .value_count = SIZE_MAX},
    {.first_bit = 8, .end_bit = 41, .value_count = 1},
    {.first_bit = 8, .end_bit = 16, .value_count = 0},
    {.first_bit = 49, .end_bit = 57, .value_count = 1},
    {.first_bit = SIZE_MAX / 2, .end_bit = SIZE_MAX, .value_count = 2},
    {.first_bit = 7, .end_bit = 15, .value_count = 1, .has_report_id = true, .report_id = 0xff},
};

static int is_unwritten(uint32_t status, const uint8_t *report)
{
    static const uint8_t before[9] = {255, 255, 255, 255, 255, 255, 255, 255, 255};
    return status == HIDREPORT_OUT_OF_BOUNDS && memcmp(report, before, sizeof before) == 0;
}

/* By such a field 7 bytes are neither written nor the two behind them. */
static void ask_to_write(saying *say)
{
    static const int64_t zeros[2];
    uint8_t report[9];

    memset(report, 0xff, sizeof report);
    for (size_t i = 0; i < sizeof no_fields / sizeof no_fields[0]; i++) {
        const struct hidreport_field *f = &no_fields[i];
        uint32_t status = hidreport_insert(f, report, 7, 0, 0);
        say(is_unwritten(status, report), "insert by no field");
        status = hidreport_insert(f, report, 7, f->value_count - 1, 0);
        say(is_unwritten(status, report), "insert of the last by no field");
        if (f->value_count != 1 && f->value_count != 2)
            continue;
        status = hidreport_insert_all(f, report, 7, zeros, f->value_count);
        say(is_unwritten(status, report), "insert_all by no field");
        status = hidreport_write(f, 1, report, 7, zeros, f->value_count);
        say(is_unwritten(status, report), "write by no field");
    }
    say(hidreport_write(NULL, 0, report, 7, NULL, 0) == HIDREPORT_ACCEPTED, "nothing of no fields");
    say(hidreport_write(NULL, 0, NULL, 0, zeros, 1) == HIDREPORT_WRONG_COUNT, "a value of none");
}

/* By fields that no descriptor has nothing is read, but of the one without a value, and of the one
 * whose bits are there. */
static void ask_to_read(saying *say)
{
    uint8_t report[7];
    int64_t values[2] = {7, 7};

    memset(report, 0xff, sizeof report);
    for (size_t i = 0; i < sizeof no_fields / sizeof no_fields[0]; i++) {
        const struct hidreport_field *f = &no_fields[i];
        size_t there = f->has_report_id ? 1 : 0;
        uint32_t status =
            there || f->value_count == 0 ? HIDREPORT_ACCEPTED : HIDREPORT_OUT_OF_BOUNDS;
        struct hidreport_answer read = hidreport_read(f, 1, report, 7, values, 0);
        struct hidreport_answer available = hidreport_read_available(f, 1, report, 7, values, 0);
        say(read.status == status && read.count == there, "a value of no field");
        say(available.status == HIDREPORT_ACCEPTED && available.count == there,
            "a value of no field that is there");
    }
    say(hidreport_read(NULL, 0, NULL, 0, NULL, 0).count == 0, "no fields");
    say(hidreport_read_available(NULL, 0, NULL, 0, NULL, 0).count == 0, "no fields that are there");
    say(values[0] == 7 && values[1] == 7, "values without room");
}

/* Counts that can't be added in 64 bits are no count of values. */
static void ask_to_write_more_than_counted(saying *say)
{
    const struct hidreport_field two[2] = {
        {.first_bit = 0, .end_bit = 8, .value_count = SIZE_MAX},
        {.first_bit = 8, .end_bit = 16, .value_count = 2},
    };
    uint8_t report[2] = {5, 6};
    const int64_t values[1] = {0};

    say(hidreport_write(two, 2, report, 2, values, 1) == HIDREPORT_WRONG_COUNT,
        "counts that wrap round");
    say(report[0] == 5 && report[1] == 6, "bytes of counts that wrap round");
}

/* Runs of numbers that no fields have, by which nothing can be read or written: more bits or values
 * than 64 bits count, too many bits or none, bits behind the bytes, another id. */
static const struct hidreport_run no_runs[] = {
    {.first_bit = SIZE_MAX, .element_width = 1, .value_count = 1},
    {.first_bit = SIZE_MAX - 7, .element_width = 8, .value_count = 1},
    {.first_bit = 8, .element_width = SIZE_MAX / 2 + 1, .value_count = 2},
    {.first_bit = 8, .element_width = 32, .value_count = SIZE_MAX},
    {.first_bit = 8, .element_width = 16, .value_count = SIZE_MAX / 16 + 2},
    {.first_bit = 8, .element_width = 33, .value_count = 1},
    {.first_bit = 8, .element_width = 0, .value_count = 1},
    {.first_bit = 49, .element_width = 8, .value_count = 1},
    {.first_bit = 56, .element_width = 1, .value_count = 1},
};

static void ask_by_no_runs(saying *say)
{
    static const int64_t zeros[2];
    static const struct hidreport_run of_another = {
        .first_bit = 8,
        .element_width = 8,
        .value_count = 1,
        .has_report_id = true,
        .report_id = 1,
    };
    static const struct hidreport_run none_of_another = {.has_report_id = true, .report_id = 1};
    uint8_t report[9];
    int64_t values[2] = {7, 7};
    struct hidreport_answer read;

    memset(report, 0xff, sizeof report);
    for (size_t i = 0; i < sizeof no_runs / sizeof no_runs[0]; i++) {
        const struct hidreport_run *r = &no_runs[i];
        read = hidreport_read_prepared(r, 1, report, 7, values, 2);
        say(read.status == HIDREPORT_OUT_OF_BOUNDS && read.count == 0, "a value of no run");
        say(values[0] == 7 && values[1] == 7, "values of no run");
        if (r->value_count > 2)
            continue;
        say(is_unwritten(hidreport_write_prepared(r, 1, report, 7, zeros, r->value_count), report),
            "write by no run");
    }
    read = hidreport_read_prepared(&of_another, 1, report, 7, values, 2);
    say(read.status == HIDREPORT_MISMATCHING_REPORT_ID && read.count == 0, "a run of another id");
    read = hidreport_read_prepared(&none_of_another, 1, report, 7, values, 2);
    say(read.status == HIDREPORT_MISMATCHING_REPORT_ID, "no values of another id");
    read = hidreport_read_prepared(&none_of_another, 1, report, 0, values, 2);
    say(read.status == HIDREPORT_OUT_OF_BOUNDS, "no values and no bytes");
    say(hidreport_write_prepared(&of_another, 1, report, 7, zeros, 1) ==
            HIDREPORT_MISMATCHING_REPORT_ID,
        "write by a run of another id");
    say(hidreport_read_prepared(NULL, 0, NULL, 0, NULL, 0).status == HIDREPORT_ACCEPTED, "no runs");
    say(hidreport_write_prepared(NULL, 0, NULL, 0, zeros, 1) == HIDREPORT_WRONG_COUNT,
        "a value of no runs");
}

/* Fields side by side are one run where width, sign and id are one; padding is none, and what lies
 * apart is another. As many are written as there is room for. */
static void ask_to_prepare(saying *say)
{
    static const struct hidreport_field many[] = {
        {.first_bit = 8, .end_bit = 9, .value_count = 1, .has_report_id = true, .report_id = 3},
        {.first_bit = 9, .end_bit = 11, .value_count = 2, .has_report_id = true, .report_id = 3},
        {.first_bit = 11, .end_bit = 16, .value_count = 0},
        {.first_bit = 16, .end_bit = 17, .value_count = 1, .has_report_id = true, .report_id = 3},
        {.first_bit = 17, .end_bit = 18, .value_count = 1, .has_report_id = true, .report_id = 4},
        {.first_bit = 18, .end_bit = 19, .value_count = 1},
        {.first_bit = 19, .end_bit = 20, .value_count = 1, .measures.logical_minimum = -1},
        {.first_bit = 20, .end_bit = 22, .value_count = 1, .measures.logical_minimum = -1},
        {.first_bit = 22, .end_bit = 24, .value_count = 1, .measures.logical_minimum = -1},
    };
    static const struct hidreport_run wanted[] = {
        {.first_bit = 8, .element_width = 1, .value_count = 3, .has_report_id = true,
         .report_id = 3},
        {.first_bit = 16, .element_width = 1, .value_count = 1, .has_report_id = true,
         .report_id = 3},
        {.first_bit = 17, .element_width = 1, .value_count = 1, .has_report_id = true,
         .report_id = 4},
        {.first_bit = 18, .element_width = 1, .value_count = 1},
        {.first_bit = 19, .element_width = 1, .value_count = 1, .is_signed = true},
        {.first_bit = 20, .element_width = 2, .value_count = 2, .is_signed = true},
    };
    enum { FIELDS = sizeof many / sizeof many[0], RUNS = sizeof wanted / sizeof wanted[0] };
    struct hidreport_run runs[FIELDS];

    for (size_t room = 0; room <= RUNS; room++) {
        memset(runs, 0x55, sizeof runs);
        struct hidreport_answer answer = hidreport_prepare(many, FIELDS, runs, room);
        say(answer.status == HIDREPORT_ACCEPTED && answer.count == RUNS, "how many runs");
        for (size_t i = 0; i < room; i++)
            say(runs[i].first_bit == wanted[i].first_bit &&
                    runs[i].element_width == wanted[i].element_width &&
                    runs[i].value_count == wanted[i].value_count &&
                    runs[i].is_signed == wanted[i].is_signed &&
                    runs[i].has_report_id == wanted[i].has_report_id &&
                    runs[i].report_id == wanted[i].report_id,
                "a run");
        say(runs[room].first_bit == (size_t)0x5555555555555555, "a run without room");
    }
    say(hidreport_prepare(NULL, 0, NULL, 0).count == 0, "runs of no fields");
    say(hidreport_prepare(&many[2], 1, NULL, 0).count == 0, "runs of padding");
}

/* Two values with room for one. */
static void ask_to_read_with_little_room(saying *say)
{
    const struct hidreport_field two[2] = {
        {.first_bit = 0, .end_bit = 8, .value_count = 1},
        {.first_bit = 8, .end_bit = 16, .value_count = 1},
    };
    const uint8_t report[2] = {5, 6};
    int64_t values[2] = {7, 7};

    struct hidreport_answer answer = hidreport_read(two, 2, report, 2, values, 1);
    say(answer.count == 2 && values[0] == 5 && values[1] == 7, "two values with room for one");
    values[0] = 7;
    answer = hidreport_read_available(two, 2, report, 2, values, 1);
    say(answer.count == 2 && values[0] == 5 && values[1] == 7, "two there, room for one");
    answer = hidreport_read(two, 2, report, 1, values, 2);
    say(answer.status == HIDREPORT_OUT_OF_BOUNDS && answer.count == 0 && values[1] == 7,
        "two values of a byte");
}
