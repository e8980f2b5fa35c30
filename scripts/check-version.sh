#!/bin/sh
# Checks that all places which state the version say what include/xosera/version.h says. The pkg-config file, the
# CMake package and the tarball's name are made from it.
set -eu
cd "$(dirname "$0")/.."
header=include/xosera/version.h
version=$(sed -n 's/.* XOSERA_VERSION  *"\(.*\)"$/\1/p' "$header")

part() {
    sed -n "s/^#define XOSERA_VERSION_$1  *\([0-9]*\)\$/\1/p" "$header"
}
major=$(part MAJOR)
minor=$(part MINOR)
patch=$(part PATCH)
number=$((major * 1000000 + minor * 1000 + patch))
symbol=xosera_header_needs_library_${major}_${minor}_${patch}

agree() { # a place, what it says, what it should say
    [ "$2" = "$3" ] || { echo "$1: says '$2', but $header makes it '$3'"; exit 1; }
}

agree XOSERA_VERSION "$version" "$major.$minor.$patch"
agree "CHANGELOG.md, newest version" "$(sed -n 's/^## \[\([0-9][^]]*\)\].*/\1/p' CHANGELOG.md | head -n 1)" "$version"
agree "the library's symbol in include, crates, docs, README.md and tests" \
    "$(grep -rhoE --exclude=run.sh --exclude-dir=out 'xosera_header_needs_library_[0-9_]+' include crates docs README.md tests | sort -u)" "$symbol"
agree "crates/firmware, $symbol answers" \
    "$(sed -n "/fn $symbol/,/^{/s/.*result ≡ \([0-9]*\) .*/\1/p" crates/firmware/src/lib.rt)" "$number"
agree packaging/xosera.pc.in "$(sed -n 's/^Version: //p' packaging/xosera.pc.in)" @VERSION@
agree packaging/XoseraConfigVersion.cmake.in \
    "$(sed -n 's/^set(PACKAGE_VERSION "\(.*\)")/\1/p' packaging/XoseraConfigVersion.cmake.in)" @VERSION@
echo "version: $version in all places"
