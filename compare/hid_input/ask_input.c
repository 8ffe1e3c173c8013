/* ask_input [--buffer BYTES] < LINES: says the input events that Linux sends for reports of a device which
 * hid-generic drives. A line is a report descriptor in hexadecimal digits, and input reports, each behind a
 * space, with the id's byte first where reports have ids. In the place of a report may stand a lamp that a
 * program sets, as `led:DEVICE:CODE:VALUE` in decimal digits. The answer is a line of JSON.
 *
 * Refused: {"refused": the message, "item", "offset", "group"}, as `ask` has it.
 *
 * Taken: {"driver": the group that hid-core's scan finds, "generic" where no other driver wants it;
 * "connected": whether hid-input took it; "devices": [[index, application], ..] of the input devices, in
 * order, with the index with which each was made: those without codes are left out; "events": [EVENTS, ..],
 * for each report}. EVENTS are [[device, type, code, value], ..] as handlers get them, with the device's
 * index. They are null where hid_input_report refuses the report, which is too short, empty or of no known
 * id; and "stopped" where hid-input divides -2147483648 by -1, for which an x86 stops it, and behind that.
 *
 * {"stopped": .., "item", "offset", "group"}: hid-core does that, before there are reports.
 * No key repeats by itself; the device takes all that is set, and answers nothing that is asked. */
#include "asking.h"
#include "said.h"
#include <stdio.h>

struct event { unsigned int device, type, code; int value; };
static struct event *events;
static size_t event_count, event_room;

/* The last output report, and how many bytes it has; -1 where there is none. */
static u8 written[16 * 1024 + 8];
static int written_size;

int shim_write(const u8 *bytes, unsigned int size)
{
    memcpy(written, bytes, size);
    written_size = size;
    return size;
}

void input_pass_values(struct input_dev *device, struct input_value *values, unsigned int count)
{
    unsigned int i;

    for (i = 0; i < count; i++) {
        if (event_count == event_room) {
            event_room = 2 * event_room + 64;
            events = shim_memory(events, event_room * sizeof(*events));
        }
        events[event_count++] = (struct event){device->dev.number, values[i].type, values[i].code,
            values[i].value};
    }
}

static void print_devices(const struct hid_device *device)
{
    const struct hid_input *input;
    const char *comma = "";

    printf(",\"devices\":[");
    list_for_each_entry(input, &device->inputs, list) {
        printf("%s[%u,\"%08x\"]", comma, input->input->dev.number, input->application);
        comma = ",";
    }
    putchar(']');
}

/* Has the kernel take the bytes of a report; whether it is taken. */
static bool take_report(struct hid_device *device, const u8 *bytes, unsigned int size)
{
    /* Behind a report's bytes there is room as in the kernel, where buffers hold all that is looked at. */
    static u8 *report;

    free(report);
    report = memcpy(shim_zeros(size + 8, 1), bytes, size);
    return hid_input_report(device, HID_INPUT_REPORT, report, size, 1) >= 0;
}

/* Has it take a lamp that a program sets: DEVICE:CODE:VALUE; whether there is such an input device. */
static bool take_lamp(struct hid_device *device, const char *word)
{
    const struct hid_input *input;
    unsigned int number, code;
    int value;

    if (sscanf(word, "%u:%u:%d", &number, &code, &value) != 3)
        exit(2);
    list_for_each_entry(input, &device->inputs, list) {
        if (input->input->dev.number == number) {
            input_event(input->input, EV_LED, code, value);
            input_event(input->input, EV_SYN, SYN_REPORT, 0);
            return true;
        }
    }
    return false;
}

/* What waits to be done. */
static void work(void)
{
    struct work_struct *waiting = shim_work;

    shim_work = NULL;
    if (waiting)
        waiting->call(waiting);
}

static void print_events(bool is_taken)
{
    size_t i;

    if (!is_taken) {
        printf("null");
        return;
    }
    putchar('[');
    for (i = 0; i < event_count; i++)
        printf("%s[%u,%u,%u,%d]", i ? "," : "", events[i].device, events[i].type, events[i].code,
               events[i].value);
    putchar(']');
}

/* What is asked is a report or a lamp: what stands behind it. Prints its events; whether the kernel goes on
 * behind them. */
static char *print_answers_to(struct hid_device *device, char *asked, u8 *bytes, bool *goes_on)
{
    bool is_lamp = !strncmp(asked, "led:", 4), is_taken;
    unsigned int size = 0;
    char *rest = is_lamp ? asked + strcspn(asked, " \n") : take_bytes(asked, bytes, &size);

    event_count = said_count = 0;
    written_size = -1;
    if (*goes_on && sigsetjmp(stopped, 1))
        *goes_on = false;
    else if (*goes_on) {
        is_taken = is_lamp ? take_lamp(device, asked + 4) : take_report(device, bytes, size);
        work();
        print_events(is_taken);
    }
    if (!*goes_on)
        printf("\"stopped\"");
    return rest;
}

/* The written report behind the last question is kept as text for the end. */
static char *add_written(char *text)
{
    size_t length = text ? strlen(text) : 0, i, more = written_size < 0 ? 4 : 2 * (size_t)written_size + 2;

    text = shim_memory(text, length + more + 2);
    if (length)
        text[length++] = ',';
    if (written_size < 0)
        strcpy(text + length, "null");
    else {
        text[length++] = '"';
        for (i = 0; i < (size_t)written_size; i++)
            length += sprintf(text + length, "%02x", written[i]);
        strcpy(text + length, "\"");
    }
    return text;
}

/* How it is taken, and the events of what stands behind it. */
static void print_answer(struct hid_device *device, char *rest, u8 *bytes, unsigned int size)
{
    const char *comma = "";
    bool goes_on = true;
    char *texts = NULL;

    if (shim_probe(device)) {
        print_refusal(size, group_name(device->group));
        return;
    }
    printf("{\"driver\":\"%s\",\"connected\":%s", group_name(device->group),
           device->claimed & HID_CLAIMED_INPUT ? "true" : "false");
    print_devices(device);
    printf(",\"events\":[");
    for (; *rest == ' '; comma = ",") {
        printf("%s", comma);
        rest = print_answers_to(device, rest + 1, bytes, &goes_on);
        texts = add_written(texts);
    }
    printf("],\"written\":[%s]}\n", texts ? texts : "");
    free(texts);
    hid_disconnect(device);
    shim_close(device);
}

static int start(struct hid_device *device)
{
    (void)device;
    return 0;
}

static void answer(char *line, unsigned int buffer)
{
    static struct hid_driver driver = {.name = "hid-generic"};
    static struct hid_ll_driver transport = {.start = start};
    static struct hid_device device;
    unsigned int size;
    char *rest;

    transport.max_buffer_size = buffer;
    rest = begin_device(&device, &driver, &transport, line, &size);
    strcpy(device.name, "hid");
    device.bus = BUS_USB;
    shim_inputs = 0;
    if (sigsetjmp(stopped, 1))
        print_stop(size, group_name(device.group));
    else {
        print_answer(&device, rest, (u8 *)line, size);
        kfree(device.dev_rdesc);
    }
}

int main(int count, char **words)
{
    return answer_lines(count, words, answer);
}
