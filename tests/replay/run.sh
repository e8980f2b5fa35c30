#!/bin/sh
# Records a session, and plays it and those of tests/recordings on libraries with one rule changed: the first answer or word
# that shows it must be named, with its line in the file and, where it is known, in the firmware. CC, CFLAGS and LIB are those of the Makefile, which calls
# this. Stops at the first failure.
set -eu
cd "$(dirname "$0")/../.."
: "${CC:=cc}" "${CFLAGS:=-std=c11 -O1 -Wall -Wextra -Wpedantic -Werror -Iinclude}" "${LIB:?}"
made=build/replay-changed
rm -rf "$made"
mkdir -p "$made"

# The library with the calls of changed.c under other names.
set --
for call in blit_step blit_run write_byte read_byte timer_tick; do
    set -- "$@" --redefine-sym "xosera_$call=real_$call"
done
objcopy "$@" "$LIB" "$made/real.a"
# shellcheck disable=SC2086  # a list of flags
$CC $CFLAGS -o "$made/session" tests/replay/session.c "$LIB"
"$made/session" "$made/session.txt"
cp tests/recordings/*.recording "$made"
# shellcheck disable=SC2086  # a list of flags
$CC $CFLAGS -c -o "$made/replay.o" examples/replay/replay.c

says() { # RULE STATUS; what it should say is on standard input
    # shellcheck disable=SC2086  # a list of flags
    $CC $CFLAGS -DRULE="$1" -o "$made/replay" "$made/replay.o" tests/replay/changed.c "$made/real.a"
    status=0
    (cd "$made" && ./replay session.txt drawing.recording state.recording) >"$made/said" || status=$?
    if ! diff - "$made/said" || [ "$status" -ne "$2" ]; then
        echo "tests/replay: $1: not what a replay should say, or exit status $status" >&2
        exit 1
    fi
}

says NO_RULE 0 <<'SAID'
session.txt: 112 calls answered as recorded
drawing.recording: 1943 calls answered as recorded
state.recording: 214 calls answered as recorded
SAID
says WHOLE_RIGHT_EDGE 1 <<'SAID'
session.txt:38: run 18446744073709551615 answered 0 4 F, recorded 0 4 8 at tests/replay/session.c:19
drawing.recording:142: run 1 answered 0 1 F, recorded 0 1 E at draw.c:33
state.recording:177: run 18446744073709551615 answered 0 9 F, recorded 0 9 8
SAID
says EMPTY_AT_A_LINE 1 <<'SAID'
session.txt:40: word 0022 of VRAM is 0567, recorded 8567 at tests/replay/session.c:19
drawing.recording: 1943 calls answered as recorded
state.recording:304: word 0057 of VRAM is 2622, recorded 2462
SAID
says SILENT_END 1 <<'SAID'
session.txt:39: XM_INT_CTRL, interrupt status is 0000, recorded 0040 at tests/replay/session.c:19
drawing.recording:2007: XM_INT_CTRL, interrupt status is 0010, recorded 0050
state.recording:178: XM_INT_CTRL, interrupt status is 0021, recorded 0061
SAID
says WHOLE_WORDS 1 <<'SAID'
session.txt:49: word 0020 of VRAM is 9999, recorded 0923 at tests/replay/session.c:38
drawing.recording:1941: word 0011 of VRAM is ABCD, recorded 0BCD
state.recording:301: word 0016 of VRAM is 9ABC, recorded 9A9C
SAID
says LIVE_READS 1 <<'SAID'
session.txt:88: read 10 even answered 0 00, recorded 0 12 at tests/replay/session.c:47
drawing.recording: 1943 calls answered as recorded
state.recording:156: read 10 even answered 0 00, recorded 0 57
SAID
says DOUBLE_TICKS 1 <<'SAID'
session.txt:96: read 2 odd answered 0 02, recorded 0 01 at tests/replay/session.c:66
drawing.recording:579: read 2 odd answered 0 8C, recorded 0 46 at draw.c:75
state.recording:247: XM_TIMER is 591F, recorded 591C
SAID
echo "replay: six rules changed, each shown at its line"
