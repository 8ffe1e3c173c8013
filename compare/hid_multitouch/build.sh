#!/bin/bash
# Builds `ask_multitouch`, which says the input devices that Linux makes of a descriptor, as hid-multitouch or
# hid-sensor-hub drives it where hid-core's scan finds that, by its own functions:
#
#     build.sh SOURCES FOLDER    SOURCES is the folder of a kernel's sources; FOLDER gets `ask_multitouch`
#     build.sh debian FOLDER     the sources of Debian's package linux-source-6.12, which apt-get fetches
#
# Of SOURCES it reads what hid_input/build.sh does, which it calls, and the files below (6.12): hid-multitouch.c
# and input-mt.c as a whole, and of hid-sensor-hub.c the probe. They are compiled with multitouch_shim.h and
# ask_multitouch.c, which are ours. Nothing of the kernel's source is kept here.
set -euo pipefail
export LC_ALL=C
[ $# -eq 2 ] || { echo 'usage: build.sh SOURCES|debian FOLDER' >&2; exit 2; }
here=$(cd "$(dirname "$0")" && pwd)
core=$(cd "$here/../hid_core" && pwd)
input=$(cd "$here/../hid_input" && pwd)
mkdir -p "$2"
folder=$(cd "$2" && pwd)
. "$core/cut.sh"
more_files=(drivers/hid/hid-multitouch.c drivers/input/input-mt.c drivers/input/input.c
    drivers/hid/hid-sensor-hub.c include/linux/hid-sensor-hub.h include/linux/mod_devicetable.h
    include/linux/input/mt.h include/linux/input.h include/linux/hid.h)
bash "$input/build.sh" "$1" "$folder"
if [ "$1" = debian ]; then
    find_sources "$folder/sources" "$folder" "${more_files[@]}"
else
    find_sources "$1" "$folder" "${more_files[@]}"
fi

{
    echo '#pragma once'
    echo '#include "kernel.h"'
    echo '#include "multitouch_shim.h"'
    cut_structures "$sources/include/linux/mod_devicetable.h" 'HID_(ANY_ID|BUS_ANY|GROUP_ANY)' hid_device_id
    cut_macros "$sources/include/linux/hid.h" HID_DEVICE
    grep -E '^#define (TRKID_|INPUT_MT_)' "$sources/include/linux/input/mt.h"
    cut_functions "$sources/include/linux/input/mt.h" 'input_mt_set_value input_mt_get_value input_mt_is_active
        input_mt_new_trkid input_mt_slot input_mt_is_used input_mt_report_slot_inactive'
    cut_structures "$sources/include/linux/input/mt.h" none input_mt_pos
    grep -E '^INPUT_GENERATE_ABS_ACCESSORS\((val|max)' "$sources/include/linux/input.h"
    cut_functions "$sources/include/linux/hid.h" 'hid_get_drvdata hid_set_drvdata'
} > "$folder/multitouch.h"
{
    echo '#include "multitouch.h"'
    awk '/^static const unsigned int input_max_code/, /^};/' "$sources/drivers/input/input.c"
    cut_functions "$sources/drivers/input/input.c" input_set_capability
    grep -v '^#include' "$sources/drivers/input/input-mt.c"
    echo '#include "multitouch_notes.h"'
    grep -v '^#include' "$sources/drivers/hid/hid-multitouch.c"
} > "$folder/multitouch.c"
{
    echo '#include "multitouch.h"'
    grep -E '^#define HID_(MAX_PHY_DEVICES|USAGE_SENSOR_COLLECTION)' "$sources/include/linux/hid-sensor-hub.h" \
        "$sources"/include/linux/hid-sensor-ids.h "$sources/drivers/hid/hid-sensor-hub.c" -h || true
    cut_structures "$sources/include/linux/hid-sensor-hub.h" none 'sensor_hub_pending hid_sensor_hub_device'
    cut_structures "$sources/drivers/hid/hid-sensor-hub.c" none sensor_hub_data
    cut_functions "$sources/drivers/hid/hid-sensor-hub.c" \
        'sensor_hub_get_physical_device_count sensor_hub_probe'
    echo 'int shim_probe_sensors(struct hid_device *device) { return sensor_hub_probe(device, NULL); }'
} > "$folder/sensors.c"

includes=(-I "$here" -I "$input" -I "$core" -I "$folder")
for part in multitouch sensors; do
    "${CC:-cc}" -std=gnu11 -O2 -w -fno-strict-overflow -fno-strict-aliasing "${includes[@]}" \
        -c -o "$folder/$part.o" "$folder/$part.c"
done
"${CC:-cc}" -std=gnu11 -O2 -Wall -Wextra -Wno-unused-function "${includes[@]}" -o "$folder/ask_multitouch" \
    "$folder/kernel.o" "$folder/multitouch.o" "$folder/sensors.o" "$core/shim.c" "$core/asking.c" \
    "$input/input_shim.c" "$here/ask_multitouch.c"
