#!/bin/bash
# The HID devices of a machine, by `hid list` and by the names that other commands take for them: on
# a tree made as Linux makes /sys/class/hidraw, and on trees where something is missing. Its argument
# is the program; else it is the one that ./hid runs.
set -euo pipefail
export LC_ALL=C

top=$(cd "$(dirname "$0")/../.." && pwd)
program=$(readlink -f "${1:-$top/build/run/hid}")
[ -x "$program" ] || {
    echo "hid_devices: no program $program" >&2
    exit 2
}
scratch=$(mktemp -d)
trap 'rm -rf "$scratch"' EXIT
cd "$scratch"
runs=0

# device TREE NUMBER DRIVER ID NAME FILE [EVENT ..]: a node with the descriptor of a file of hex text.
device() {
    local folder="$1/class/hidraw/hidraw$2/device" event
    mkdir -p "$folder"
    printf 'DRIVER=%s\nHID_ID=%s\nHID_NAME=%s\nHID_PHYS=usb-1/input0\nHID_UNIQ=\n' "$3" "$4" "$5" \
        > "$folder/uevent"
    "$program" convert --to bytes "$6" > "$folder/report_descriptor" 2> said
    shift 6
    for event; do
        mkdir -p "$folder/input/input$event/event$event" "$folder/input/input$event/capabilities"
    done
}

# wants STATUS TEXT WORD ..: what both streams have together.
wants() {
    local status=0 wanted=$1 text=$2 got
    shift 2
    runs=$((runs + 1))
    got=$("$program" "$@" 2>&1 < /dev/null) || status=$?
    [ "$status" -eq "$wanted" ] && [ "$got" = "$text" ] || {
        echo "hid_devices: hid $*: status $status, and '$got' in place of '$text'" >&2
        exit 1
    }
}

data="$top/crates/hid/data"
device sys 0 hid-generic 0003:0000046D:0000C077 'Logitech USB Optical Mouse' "$data/mouse.hex" 12 4
device sys 2 '' 0005:00000001:00000002 "$(printf 'a \033[31m pad')" "$data/gamepad.hex"
device sys 10 hid-generic 0003:0000046D:0000C31C 'Logitech USB Keyboard' "$data/keyboard.hex" 5

device mouse 0 hid-generic 0003:0000046D:0000C077 'Logitech USB Optical Mouse' "$data/mouse.hex" 12 4

wants 0 '/dev/hidraw0: Logitech USB Optical Mouse
  USB 046d:c077, driver hid-generic, event4, event12
  Mouse: 1 input report
/dev/hidraw2: a \u{1b}[31m pad
  Bluetooth 0001:0002
  Gamepad: 1 input report
/dev/hidraw10: Logitech USB Keyboard
  USB 046d:c31c, driver hid-generic, event5
  Keyboard: 1 input report, 1 output report' list --sysfs sys

wants 0 '{"node":"/dev/hidraw0","name":"Logitech USB Optical Mouse","bus":3,"vendor":1133,"product":49271,"driver":"hid-generic","input":["event4","event12"],"applications":[{"usage":65538,"name":"Generic Desktop / Mouse"}],"reports":[{"direction":"input","report":null,"bits":24}]}' \
    list --json --sysfs mouse

# What a terminal may not be given stands as JSON has it.
device odd 4 '' 0003:00000001:00000002 "$(printf 'a\302\233b\177c\342\200\256d')" "$data/mouse.hex"
wants 0 '{"node":"/dev/hidraw4","name":"a\u009bb\u007fc\u202ed","bus":3,"vendor":1,"product":2,"driver":"","input":[],"applications":[{"usage":65538,"name":"Generic Desktop / Mouse"}],"reports":[{"direction":"input","report":null,"bits":24}]}' \
    list --json --sysfs odd

# Buses by their names, and one without.
device buses 0 '' 0006:00000001:00000002 one "$data/mouse.hex"
device buses 1 '' 0018:00000001:00000002 two "$data/mouse.hex"
device buses 2 '' 0019:00000001:00000002 three "$data/mouse.hex"
wants 0 '/dev/hidraw0: one
  virtual 0001:0002
  Mouse: 1 input report
/dev/hidraw1: two
  I2C 0001:0002
  Mouse: 1 input report
/dev/hidraw2: three
  bus 0019 0001:0002
  Mouse: 1 input report' list --sysfs buses

# The last node that Linux makes (its HIDRAW_MAX_DEVICES is 64); an input device has other nodes, too.
device last 63 '' 0003:00000001:00000002 last "$data/mouse.hex" 3
mkdir last/class/hidraw/hidraw63/device/input/input3/mouse0
wants 0 '/dev/hidraw63: last
  USB 0001:0002, event3
  Mouse: 1 input report' list --sysfs last

# A device by its node, its number, its ids, or a part of its name; a file of that name goes before.
mouse=$("$program" convert "$data/mouse.hex" 2> said)
for name in hidraw0 046d:c077 46D:C077 c077 Optical event4 event12; do
    wants 0 "hid: $name: is /dev/hidraw0
$mouse" convert --sysfs sys "$name"
done
wants 0 "hid: /dev/hidraw0: read as bytes
$mouse" convert --verbose --sysfs sys /dev/hidraw0
wants 0 "$mouse" convert --quiet --sysfs sys Optical
wants 0 "hid: 0001:0002: is /dev/hidraw63
$mouse" convert --sysfs last 0001:0002
# A recording has what Linux tells of the device: its name, where it is plugged in, and its ids.
wants 0 "hid: Optical: is /dev/hidraw0
D: 0
R: 50 $(tr '\n' ' ' <<< "$mouse" | sed 's/ *$//')
N: Logitech USB Optical Mouse
P: usb-1/input0
I: 3 046d c077" record --raw --sysfs sys Optical -
echo 05 01 > Optical
wants 0 'hid: Optical: read as hex text
05 01' convert --verbose --sysfs sys Optical

# The descriptor of a node is bytes, though they may be digits of hex text.
device digits 3 hid-generic 0003:0000046D:0000C077 'a mouse' "$data/mouse.hex"
printf '05 01' > digits/class/hidraw/hidraw3/device/report_descriptor
wants 0 'hid: hidraw3: is /dev/hidraw3
hid: hidraw3: read as bytes
30 35 20 30 31' convert --verbose --sysfs digits hidraw3

# Without a file the devices are listed, and one is asked for; its descriptor is read, and its node.
recorded() {
    runs=$((runs + 1))
    [ "$(printf '%b' "$1" | "$program" record --sysfs "$2" 2>&1)" = "$3" ] || {
        echo "hid_devices: asked for a device: '$(printf '%b' "$1" | "$program" record --sysfs "$2" 2>&1)'" >&2
        exit 1
    }
}
asks='0: Logitech USB Optical Mouse
2: a \u{1b}[31m pad
10: Logitech USB Keyboard
hid: the number of a device: hid: record: '
recorded '10\n' sys "${asks}/dev/hidraw10: No such file or directory (os error 2)"
recorded '1\n' sys "${asks}'1' is none of the numbers"
recorded '\0377x' sys "${asks}'?x' is none of the numbers"
recorded '' sys "${asks}'' is none of the numbers"
# The first line says it, of which 16 letters are looked at.
recorded '2\n10\n' sys "${asks}/dev/hidraw2: No such file or directory (os error 2)"
recorded 'the second of them\n' sys "${asks}'the second of th' is none of the numbers"
mkdir none_at_all
recorded '0\n' none_at_all 'hid: record: the machine has no HID device'
wants 1 'hid: hidraw10: is /dev/hidraw10
hid: hidraw10: No such file or directory (os error 2)' record --sysfs sys hidraw10

# What means several devices, or none; a descriptor that is refused; what isn't as Linux writes it.
wants 1 'hid: Logitech: means hidraw0, hidraw10' convert --sysfs sys Logitech
wants 1 'hid: event6: No such file or directory (os error 2)' convert --sysfs sys event6
for name in wave 0000:c077; do
    wants 1 "hid: $name: No such file or directory (os error 2)" convert --sysfs sys "$name"
done
# The product's four digits alone name a device, and no fewer.
wants 1 'hid: 2: No such file or directory (os error 2)' convert --sysfs last 2
wants 1 'hid: 046d:c078: No such file or directory (os error 2)' convert --sysfs sys 046d:c078
wants 1 'hid: hidraw1: No such file or directory (os error 2)' convert --sysfs sys hidraw1
wants 1 'hid: : No such file or directory (os error 2)' convert --sysfs mouse ''
mkdir empty
wants 0 'hid: the machine has no HID device' list --sysfs empty
wants 0 '' list --quiet --sysfs empty
wants 1 'hid: list: nowhere: No such file or directory (os error 2)' list --sysfs nowhere
# A pipe is no folder, and nobody waits for what it brings.
mkfifo pipe
got=$(timeout 10 "$program" list --sysfs pipe 2>&1 < /dev/null) || true
[ "$got" = 'hid: list: pipe: Not a directory (os error 20)' ] || {
    echo "hid_devices: of a pipe as a folder hid says '$got'" >&2
    exit 1
}
runs=$((runs + 1))
device refused 1 hid-generic 0003:0000046D:0000C077 "$(printf 'a \351')" "$data/odd.hex"
printf '\300' > refused/class/hidraw/hidraw1/device/report_descriptor
wants 1 '/dev/hidraw1: a �
  USB 046d:c077, driver hid-generic
  refused: Linux refuses it at offset 0: an End Collection without a collection' list --sysfs refused
wants 1 '{"node":"/dev/hidraw1","name":"a �","bus":3,"vendor":1133,"product":49271,"driver":"hid-generic","input":[],"applications":null,"reports":null,"refused":"Linux refuses it at offset 0: an End Collection without a collection"}' \
    list --json --sysfs refused
wants 1 '/dev/hidraw1: a �
  USB 046d:c077, driver hid-generic
  refused: refused at offset 0: Too many EndCollection' list --as standard --sysfs refused
# Files in place of folders.
mkdir -p files/class/hidraw/hidraw0
echo > files/class/hidraw/hidraw0/device
wants 1 '/dev/hidraw0: refused: files/class/hidraw/hidraw0/device/uevent: Not a directory (os error 20)' \
    list --sysfs files
device input 0 '' 0003:0000046D:0000C077 'a mouse' "$data/mouse.hex"
echo > input/class/hidraw/hidraw0/device/input
wants 1 'hid: list: input/class/hidraw/hidraw0/device/input: Not a directory (os error 20)' \
    list --sysfs input
device three 0 '' 0003:0000046D 'a mouse' "$data/mouse.hex"
device three 1 '' 0003:0000046D:0000C077 'a mouse' "$data/mouse.hex"
wants 1 "/dev/hidraw0: refused: three/class/hidraw/hidraw0/device/uevent: HID_ID isn't three numbers
/dev/hidraw1: a mouse
  USB 046d:c077
  Mouse: 1 input report" list --sysfs three
rm -r three/class/hidraw/hidraw1
wants 1 '{"node":"/dev/hidraw0","refused":"three/class/hidraw/hidraw0/device/uevent: HID_ID isn'"'"'t three numbers"}' \
    list --json --sysfs three
device parts 0 '' 0003:0000046D:0000C077:0001 'a mouse' "$data/mouse.hex"
wants 1 "/dev/hidraw0: refused: parts/class/hidraw/hidraw0/device/uevent: 0003:0000046D:0000C077:0001 isn't three numbers" \
    list --sysfs parts
# A device without ids has none.
device ids 0 '' 0003:0000046D:0000C077 'a mouse' "$data/mouse.hex"
echo 'HID_NAME=a mouse' > ids/class/hidraw/hidraw0/device/uevent
wants 0 '/dev/hidraw0: a mouse
  bus 0000 0000:0000
  Mouse: 1 input report' list --sysfs ids
device four 0 '' 0003:0000046D:0000C077 'a mouse' "$data/mouse.hex"
rm four/class/hidraw/hidraw0/device/report_descriptor
wants 1 '/dev/hidraw0: a mouse
  USB 046d:c077
  refused: four/class/hidraw/hidraw0/device/report_descriptor: No such file or directory (os error 2)' \
    list --sysfs four

# What has several outermost collections, reports in none, and no report.
echo '05 01 75 08 95 01 09 02 a1 01 85 01 09 30 81 02 c0 05 0c 09 01 a1 01 85 02 09 e2 81 02 c0' \
    '05 01 09 02 a1 01 85 03 09 31 81 02 85 03 09 31 b1 02 c0' > several.hex
device several 0 '' 0003:0000046D:0000C077 several several.hex
echo '05 01 75 08 95 01 09 30 81 02' > bare.hex
device several 1 '' 0003:0000046D:0000C077 bare bare.hex
echo '05 01 09 02 a1 01 c0' > idle.hex
device several 2 '' 0003:0000046D:0000C077 idle idle.hex
wants 0 '/dev/hidraw0: several
  USB 046d:c077
  Mouse, Consumer Control: 3 input reports, 1 feature report
/dev/hidraw1: bare
  USB 046d:c077
  1 input report
/dev/hidraw2: idle
  USB 046d:c077
  no report' list --sysfs several
echo "hid_devices: $runs runs on made trees"
