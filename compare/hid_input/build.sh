#!/bin/bash
# Builds `ask_input`, which says the input events that Linux sends for reports, by its own functions:
#
#     build.sh SOURCES FOLDER    SOURCES is the folder of a kernel's sources; FOLDER gets `ask_input`
#     build.sh debian FOLDER     the sources of Debian's package linux-source-6.12, which apt-get fetches
#
# Of SOURCES it reads the files below (6.12): hid-input.c as a whole, without the battery, and what is needed
# of hid-core.c, hid-generic.c, input.c and the headers, cut out unchanged (hid_core/cut.sh). They are
# compiled with hid_core's shims, declarations.h, input_shim.h, input_shim.c and ask_input.c, which are ours.
# Nothing of the kernel's source is kept here.
set -euo pipefail
export LC_ALL=C
[ $# -eq 2 ] || { echo 'usage: build.sh SOURCES|debian FOLDER' >&2; exit 2; }
here=$(cd "$(dirname "$0")" && pwd)
core=$(cd "$here/../hid_core" && pwd)
mkdir -p "$2"
folder=$(cd "$2" && pwd)
. "$core/cut.sh"
find_sources "$1" "$folder" "${core_files[@]}" drivers/hid/hid-input.c drivers/hid/hid-generic.c \
    drivers/input/input.c include/linux/input.h include/linux/input/mt.h include/uapi/linux/input.h \
    include/uapi/linux/input-event-codes.h

# Of hid-core.c besides: the order of a report's values, setting reports, and connecting a device.
order_and_connect='__hid_insert_field_entry hid_report_process_ordering hid_process_ordering
    s32ton __implement implement hid_output_field hid_output_report hid_alloc_report_buf hid_set_field
    __hid_request hid_hw_request hid_connect hid_disconnect hid_hw_start'
inline_functions='hid_map_usage hid_map_usage_clear hid_parse hid_hw_wait hid_report_len'

# Of input.c: making and registering devices, and all that an event passes up to input_pass_values, which is
# ours.
input_functions='is_event_supported input_defuzz_abs_event input_handle_abs_event input_get_disposition
    input_event_dispose input_handle_event input_event input_alloc_absinfo input_set_abs_params
    input_scancode_to_scalar input_allocate_device input_free_device input_estimate_events_per_packet
    input_cleanse_bitmasks input_device_tune_vals input_register_device'
dispositions='INPUT_IGNORE_EVENT INPUT_PASS_TO_HANDLERS INPUT_PASS_TO_DEVICE INPUT_SLOT INPUT_FLUSH
    INPUT_PASS_TO_ALL INPUT_CLEANSE_BITMASK'

input_header=$sources/include/linux/input.h
{
    echo '#pragma once'
    echo '#include "input_shim.h"'
    cat "$sources/include/uapi/linux/hid.h" "$sources/drivers/hid/hid-ids.h" \
        "$sources/include/uapi/linux/input-event-codes.h"
    grep -v '^#include' "$sources/include/uapi/linux/input.h"
    cut_structures "$input_header" 'ABS_MT_(FIRST|LAST)' 'input_value input_dev input_handler input_handle'
    cut_structures "$sources/include/linux/input/mt.h" 'none' 'input_mt_slot input_mt'
    cut_structures "$sources/include/linux/hid.h" 'HID_[A-Z0-9_]+' "$core_structures hid_input"
    cut_macros "$sources/include/linux/hid.h" 'HID_CONNECT_DEFAULT IS_INPUT_APPLICATION'
    echo "$core_declarations"
    cat "$here/declarations.h"
    cut_macros "$input_header" INPUT_GENERATE_ABS_ACCESSORS
    grep '^INPUT_GENERATE_ABS_ACCESSORS(res' "$input_header"
    cut_functions "$input_header" 'input_get_drvdata input_set_drvdata input_sync input_set_events_per_packet'
    cut_functions "$sources/include/linux/input/mt.h" 'input_is_mt_value input_is_mt_axis'
    cut_functions "$sources/include/linux/hid.h" "$inline_functions"
} > "$folder/kernel.h"
{
    echo '#include "kernel.h"'
    cut_functions "$sources/drivers/hid/hid-core.c" "$core_functions $order_and_connect"
    echo "$core_calls"
    grep -E '^static (LIST_HEAD|DEFINE_MUTEX)\(|^static const struct input_value input_value_sync' \
        "$sources/drivers/input/input.c"
    cut_structures "$sources/drivers/input/input.c" 'none' 'input_devres'
    cut_macros "$sources/drivers/input/input.c" "$dispositions"
    cut_functions "$sources/drivers/input/input.c" "$input_functions"
    grep -v '^#include' "$sources/drivers/hid/hid-input.c"
    cut_functions "$sources/drivers/hid/hid-generic.c" hid_generic_probe
    echo 'int shim_probe(struct hid_device *device) { return hid_generic_probe(device, NULL); }'
} > "$folder/kernel.c"

compile_kernel "$folder" -I "$here" -I "$core" -I "$folder"
"${CC:-cc}" -std=gnu11 -O2 -Wall -Wextra -Wno-unused-function -I "$here" -I "$core" -I "$folder" \
    -o "$folder/ask_input" "$folder/kernel.o" "$core/shim.c" "$core/asking.c" "$here/input_shim.c" \
    "$here/ask_input.c"
