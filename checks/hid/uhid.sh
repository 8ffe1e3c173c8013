#!/bin/bash
# What `hid uhid` writes is, byte for byte, what a program in C makes of the same recording by the
# structs of linux/uhid.h, and each event is written at once, as the kernel wants it; then what it
# says and refuses where that takes more than a stored run. The argument is the program; else it is
# the one that ./hid runs. Without a C compiler or that header nothing is tried.
set -euo pipefail
export LC_ALL=C

top=$(cd "$(dirname "$0")/../.." && pwd)
program=$(readlink -f "${1:-$top/build/run/hid}")
[ -x "$program" ] || {
    echo "hid_uhid: no program $program" >&2
    exit 2
}
scratch=$(mktemp -d)
trap 'rm -rf "$scratch"' EXIT
cat > "$scratch/events.c" << 'END_OF_C'
/* events NUMBER RECORDING PROGRAM WORD ..: the events of the recording's device with this number,
   by the header; each is compared with what the program writes at once. */
#include <linux/uhid.h>
#include <stdint.h>
#include <stdio.h>
#include <stdlib.h>
#include <string.h>
#include <sys/socket.h>
#include <sys/wait.h>
#include <unistd.h>

static int sent, device, wanted;

static size_t bytes_of(char *digits, uint8_t *bytes, size_t count) {
    for (size_t index = 0; index < count; index++) bytes[index] = strtol(digits, &digits, 16);
    return count;
}

static void is_next(const struct uhid_event *event) {
    static char got[65536];
    ssize_t count = recv(sent, got, sizeof got, 0);
    if (count != sizeof *event || memcmp(got, event, sizeof *event)) {
        fprintf(stderr, "an event of type %u is other %zd bytes\n", event->type, count);
        exit(1);
    }
}

int main(int argc, char **argv) {
    static char line[1 << 20];
    static struct uhid_event create, event;
    struct uhid_create2_req *made = &create.u.create2;
    int ends[2], status, offset;
    unsigned bus, vendor, product, count;
    if (argc < 4 || socketpair(AF_UNIX, SOCK_SEQPACKET, 0, ends)) return 2;
    if (fork() == 0) {
        dup2(ends[1], 1);
        close(ends[0]);
        execv(argv[3], argv + 3);
        _exit(2);
    }
    close(ends[1]);
    sent = ends[0];
    wanted = atoi(argv[1]);
    create.type = UHID_CREATE2;
    made->bus = 3;
    for (int is_second = 0; is_second < 2; is_second++) {
        FILE *file = fopen(argv[2], "r");
        if (!file) return 2;
        if (is_second) is_next(&create);
        for (device = 0; fgets(line, sizeof line, file);) {
            line[strcspn(line, "\n")] = 0;
            sscanf(line, "D: %d", &device);
            if (device != wanted) continue;
            if (!strncmp(line, "N: ", 3)) strncpy((char *)made->name, line + 3, 127);
            if (!strncmp(line, "P: ", 3)) strncpy((char *)made->phys, line + 3, 63);
            if (sscanf(line, "I: %x %x %x", &bus, &vendor, &product) == 3) {
                made->bus = bus;
                made->vendor = vendor;
                made->product = product;
            }
            if (sscanf(line, "R: %u%n", &count, &offset) == 1)
                made->rd_size = bytes_of(line + offset, made->rd_data, count);
            if (is_second && sscanf(line, "E: %*s %u%n", &count, &offset) == 1) {
                memset(&event, 0, sizeof event);
                event.type = UHID_INPUT2;
                event.u.input2.size = bytes_of(line + offset, event.u.input2.data, count);
                is_next(&event);
            }
        }
        fclose(file);
    }
    memset(&event, 0, sizeof event);
    event.type = UHID_DESTROY;
    is_next(&event);
    if (recv(sent, line, sizeof line, 0) != 0) return 1;
    wait(&status);
    return status != 0;
}
END_OF_C
cc -Wall -Wextra -o "$scratch/events" "$scratch/events.c" 2> "$scratch/said" || {
    ! grep -q '^#include <linux/uhid.h>' "$scratch/events.c" || ! command -v cc > /dev/null ||
        ! echo '#include <linux/uhid.h>' | cc -E - > /dev/null 2>&1 || {
        cat "$scratch/said" >&2
        exit 1
    }
    echo 'hid_uhid: no `cc` or no linux/uhid.h, so no event is compared'
    exit 0
}
answers=0

wrong() {
    echo "hid_uhid: $1" >&2
    exit 1
}

# A recording's device with a number, and what is said on standard error.
same() {
    local recording=$1 number=$2 said=$3
    shift 3
    "$scratch/events" "$number" "$recording" "$program" uhid "$@" "$recording" 2> "$scratch/said" ||
        wrong "$recording: $(cat "$scratch/said")"
    [ "$(< "$scratch/said")" = "$said" ] ||
        wrong "$recording: says $(cat "$scratch/said")"
    answers=$((answers + 1))
}
# So many bytes of a descriptor or a report, in digits.
digits() {
    head -c "$1" /dev/zero | tr '\0' "${2-\\244}" | od -An -v -tx1 | tr -d '\n'
}

data="$top/crates/hid/data"
same "$data/mouse.recording" 0 ''
same "$data/two_devices.recording" 0 '' --device 0
same "$data/two_devices.recording" 1 '' --device 1
printf 'R: 2 05 01\n' > "$scratch/bare"
same "$scratch/bare" 0 ''
printf 'R: 4096 %s\nE: 0 4096 %s\nE: 0 0\n' "$(digits 4096)" "$(digits 4096 '\377')" \
    > "$scratch/greatest"
same "$scratch/greatest" 0 ''
printf 'N: %0127d\nP: %063d\nI: ffff ffffffff 1\nR: 1 c0\n' 7 7 > "$scratch/fitting"
same "$scratch/fitting" 0 ''
printf 'N: %0126dä\nP: %064d\nI: 18 06cb 0000\nR: 1 c0\n' 7 7 > "$scratch/longer"
sed 's/ä//; s/^P: 0*/&/' "$scratch/longer" > "$scratch/cut"
"$program" uhid "$scratch/longer" > "$scratch/longer_events" 2> "$scratch/longer_said" ||
    wrong 'a longer name is refused'
"$program" uhid "$scratch/cut" > "$scratch/cut_events" 2> /dev/null
cmp "$scratch/longer_events" "$scratch/cut_events" || wrong 'a name is cut otherwise'
same "$scratch/cut" 0 'hid: of a place of 64 bytes uhid gets 63'
[ "$(tail -n 2 "$scratch/longer_said")" = 'hid: of a name of 128 bytes uhid gets 126
hid: of a place of 64 bytes uhid gets 63' ] ||
    wrong "of longer names it says $(cat "$scratch/longer_said")"

# What is refused writes nothing; reports of another device are counted.
refused() {
    local wanted=$1 status=0
    shift
    "$@" > "$scratch/output" 2> "$scratch/said" || status=$?
    [ "$status" -eq 1 ] && [ ! -s "$scratch/output" ] &&
        [ "$(tail -n 1 "$scratch/said")" = "$wanted" ] ||
        wrong "$*: status $status, $(cat "$scratch/said")"
    answers=$((answers + 1))
}
printf 'R: 4097 %s\n' "$(digits 4097)" > "$scratch/great"
refused "hid: $scratch/great: the descriptor has 4097 bytes, and uhid takes 1 to 4096" \
    "$program" uhid "$scratch/great"
printf 'R: 1 c0\nE: 0 0\nE: 0 4097 %s\n' "$(digits 4097)" > "$scratch/great"
refused "hid: $scratch/great: report 2 has 4097 bytes, and uhid takes up to 4096" \
    "$program" uhid "$scratch/great"
printf 'R: 1 c0\nE: 0 1 05\nD: 1\nE: 0 1 06\n' > "$scratch/others"
status=0
"$program" uhid "$scratch/others" > "$scratch/output" 2> "$scratch/said" || status=$?
[ "$status" -eq 1 ] && [ "$(stat -c %s "$scratch/output")" -eq $((3 * 4380)) ] &&
    [ "$(tail -n 1 "$scratch/said")" = "hid: 1 report isn't of this descriptor" ] ||
    wrong "of a report of another device it says $(cat "$scratch/said")"
! "$program" uhid --quiet "$scratch/others" > "$scratch/quiet" 2> "$scratch/said" &&
    cmp "$scratch/output" "$scratch/quiet" && [ ! -s "$scratch/said" ] ||
    wrong "of a report of another device it says, where no notes are wanted, $(cat "$scratch/said")"
echo "hid_uhid: $((answers + 3)) answers as by linux/uhid.h"
