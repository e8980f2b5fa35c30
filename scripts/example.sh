#!/bin/sh
# Builds the library and draws the telescope's cross, then the cross with last spring's fault. With
# the argument cross, runs that example with the arguments behind it, as in `cross -s -f`, or in
# `cross -w 31 3`, which says why that pixel is as it is; with boot, boots once, saves the adapter and
# loads it instead of a second boot; with border, changes the border in mid-frame by a copper list, and
# by one that waits for a wrong line; with screen, paints the cross with such a border line by line, to
# build/screen.ppm, and with screen --grey in the levels of a monochrome tube, to build/screen.pgm; with
# polling, waits in loops of the firmware's own, recorded, and plays the recording.
# Installs what Debian has and this machine lacks.
set -eu
cd "$(dirname "$0")/.."
target=${1:-example}
case "$*" in
cross\ *) ;;
'screen --grey') target=grey ;;
*\ *)
    echo "example.sh: there is no example '$*': cross takes arguments of its own, screen takes --grey" >&2
    exit 2
    ;;
esac
. scripts/setup.sh
need gcc command -v gcc
need libc6-dev test -e /usr/include/stdint.h
need make command -v make
install_missing
make lib
if [ "${1:-}" = cross ]; then
    shift
    make -s build/cross
    exec build/cross "$@"
fi
make "$target"
