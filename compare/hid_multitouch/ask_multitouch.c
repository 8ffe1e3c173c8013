/* ask_multitouch [--buffer BYTES] < DESCRIPTORS: says the input devices that Linux makes of report descriptors,
 * one in hexadecimal digits a line, where hid-core's scan finds one of hid-multitouch or hid-sensor-hub; the
 * answer is a line of JSON. The devices have no ids, so the driver takes its class for any device of the group.
 *
 * Refused, or stopped at a division: as `ask_input` has it.
 *
 * Taken: {"driver": the group that the scan finds, "connected": whether hid-input took it, "devices": [..],
 * "fields": [..]}. A device has "index", "application", "name" (what stands behind the name of the device),
 * "slots" (0 where it has none) with the "flags" by which they were made, "props", "ev", "key", "rel", "msc", "led": the numbers of the bits that are
 * set, and "abs": [[code, minimum, maximum, fuzz, flat, resolution], ..]; those without codes are left out.
 * "fields" are those of input reports, then of output reports: {"type", "id", "offset", "size", "flags",
 * "count", "usages"}, each usage [usage, answer of the driver, [[type, code], ..] that it gave meanwhile, the
 * device's index, type, code]; the driver's answer is null where it wasn't asked, else below 0 where it ignores
 * the usage, 0 where it leaves it to hid-input; the type is 0 where an event is never sent for it alone.
 *
 * The device answers nothing that is asked of it. */
#include "asking.h"
#include "multitouch.h"
#include "said.h"
#include <stdio.h>

struct note {
    const struct hid_usage *usage;
    int answer;
    unsigned int count, codes[8][2], device;
};

static struct note *notes;
static size_t note_count;
static int (*mapping)(struct hid_device *, struct hid_input *, struct hid_field *, struct hid_usage *,
                      unsigned long **, int *);

void shim_note(unsigned int type, unsigned int code)
{
    struct note *note = notes + note_count - 1;

    if (!note_count || note->count == 8)
        abort();
    note->codes[note->count][0] = type;
    note->codes[note->count++][1] = code;
}

static int noted_mapping(struct hid_device *device, struct hid_input *input, struct hid_field *field,
                         struct hid_usage *usage, unsigned long **bit, int *most)
{
    struct note *note;
    int answer;

    notes = shim_memory(notes, (note_count + 1) * sizeof(*notes));
    note = notes + note_count++;
    memset(note, 0, sizeof(*note));
    note->usage = usage;
    note->device = input->input->dev.number;
    answer = mapping(device, input, field, usage, bit, most);
    note->answer = answer;
    return answer;
}

/* What is written to the device isn't looked at. */
int shim_write(const u8 *bytes, unsigned int size)
{
    (void)bytes;
    return size;
}

void input_pass_values(struct input_dev *device, struct input_value *values, unsigned int count)
{
    (void)device, (void)values, (void)count;
}

static void print_bits(const char *name, const unsigned long *bits, unsigned int count)
{
    const char *comma = "";
    unsigned int bit;

    printf(",\"%s\":[", name);
    for_each_set_bit(bit, bits, count) {
        printf("%s%u", comma, bit);
        comma = ",";
    }
    putchar(']');
}

static void print_device(const struct hid_input *one)
{
    const struct input_dev *input = one->input;
    const char *comma = "";
    unsigned int axis;

    printf("{\"index\":%u,\"application\":\"%08x\",\"name\":", input->dev.number, one->application);
    print_text(input->name + (strlen(input->name) > 3 ? 4 : 3));
    printf(",\"slots\":%u,\"flags\":%u", input->mt ? (unsigned int)input->mt->num_slots : 0,
           input->mt ? input->mt->flags : 0);
    print_bits("props", input->propbit, INPUT_PROP_CNT);
    print_bits("ev", input->evbit, EV_CNT);
    print_bits("key", input->keybit, KEY_CNT);
    print_bits("rel", input->relbit, REL_CNT);
    print_bits("msc", input->mscbit, MSC_CNT);
    print_bits("led", input->ledbit, LED_CNT);
    printf(",\"abs\":[");
    for_each_set_bit(axis, input->absbit, ABS_CNT) {
        const struct input_absinfo *info = input->absinfo + axis;

        printf("%s[%u,%d,%d,%d,%d,%d]", comma, axis, info->minimum, info->maximum, info->fuzz, info->flat,
               info->resolution);
        comma = ",";
    }
    printf("]}");
}

static void print_devices(const struct hid_device *device)
{
    const struct hid_input *input;
    const char *comma = "";

    printf(",\"devices\":[");
    list_for_each_entry(input, &device->inputs, list) {
        printf("%s", comma);
        print_device(input);
        comma = ",";
    }
    putchar(']');
}

/* A usage, with what was noted of it. */
static void print_usage(const struct hid_field *field, const struct hid_usage *usage)
{
    const struct note *note = NULL;
    unsigned int k;
    size_t i;

    for (i = 0; i < note_count; i++)
        if (notes[i].usage == usage)
            note = notes + i;
    printf("[\"%08x\",", usage->hid);
    if (note)
        printf("%d,[", note->answer);
    else
        printf("null,[");
    for (k = 0; note && k < note->count; k++)
        printf("%s[%u,%u]", k ? "," : "", note->codes[k][0], note->codes[k][1]);
    printf("],%d,%u,%u]", field->hidinput && field->hidinput->input ? (int)field->hidinput->input->dev.number :
           -1, usage->type, usage->code);
}

static void print_fields(const struct hid_device *device)
{
    const struct hid_report *report;
    const char *comma = "";
    unsigned int type, i, k;

    printf(",\"fields\":[");
    for (type = HID_INPUT_REPORT; type <= HID_OUTPUT_REPORT; type++)
        list_for_each_entry(report, &device->report_enum[type].report_list, list)
            for (i = 0; i < report->maxfield; i++) {
                const struct hid_field *field = report->field[i];

                printf("%s{\"type\":\"%s\",\"id\":%u,\"offset\":%u,\"size\":%u,\"flags\":%u,\"count\":%u,"
                       "\"usages\":[", comma, type == HID_INPUT_REPORT ? "input" : "output", report->id,
                       field->report_offset, field->report_size, field->flags, field->report_count);
                for (k = 0; k < field->maxusage; k++) {
                    printf("%s", k ? "," : "");
                    print_usage(field, field->usage + k);
                }
                printf("]}");
                comma = ",";
            }
    putchar(']');
}

/* As the bus gives the device to the driver whose table has its group, behind all that name ids. */
static int probe(struct hid_device *device)
{
    const struct hid_device_id *id = shim_multitouch->id_table;

    if (device->group == HID_GROUP_SENSOR_HUB)
        return shim_probe_sensors(device);
    if (device->group != HID_GROUP_MULTITOUCH && device->group != HID_GROUP_MULTITOUCH_WIN_8)
        return shim_probe(device);
    while (id->group != device->group || id->vendor != (__u32)HID_ANY_ID ||
           id->product != (__u32)HID_ANY_ID)
        id++;
    return shim_multitouch->probe(device, id);
}

static void print_answer(struct hid_device *device, unsigned int size)
{
    if (probe(device)) {
        print_refusal(size, group_name(device->group));
        return;
    }
    printf("{\"driver\":\"%s\",\"connected\":%s", group_name(device->group),
           device->claimed & HID_CLAIMED_INPUT ? "true" : "false");
    print_devices(device);
    print_fields(device);
    printf("}\n");
}

static int start(struct hid_device *device)
{
    (void)device;
    return 0;
}

static void answer(char *line, unsigned int buffer)
{
    static struct hid_driver driver, none = {.name = "hid-generic"};
    static struct hid_ll_driver transport = {.start = start};
    static struct hid_device device;
    unsigned int size;

    transport.max_buffer_size = buffer;
    driver = *shim_multitouch;
    mapping = driver.input_mapping;
    driver.input_mapping = noted_mapping;
    begin_device(&device, &none, &transport, line, &size);
    if (device.group == HID_GROUP_MULTITOUCH || device.group == HID_GROUP_MULTITOUCH_WIN_8)
        device.driver = &driver;
    strcpy(device.name, "hid");
    device.bus = BUS_USB;
    shim_inputs = 0;
    note_count = 0;
    INIT_LIST_HEAD(&device.inputs);
    if (sigsetjmp(stopped, 1))
        print_stop(size, group_name(device.group));
    else
        print_answer(&device, size);
}

int main(int count, char **words)
{
    return answer_lines(count, words, answer);
}
