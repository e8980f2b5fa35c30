#!/bin/sh
# Runs the C and Rust tests against the library, and builds against an installed copy; stops at the first failure.
# Installs what Debian has and this machine lacks. Takes about a minute beside the library's proof.
set -eu
cd "$(dirname "$0")/.."
. scripts/setup.sh
need gcc command -v gcc
need g++ command -v g++
need clang command -v clang++
need make command -v make
need cmake command -v cmake
need pkg-config command -v pkg-config
need cargo command -v cargo
need valgrind command -v valgrind
need libcmocka-dev test -e /usr/include/cmocka.h
need netpbm command -v pngtopam
install_missing

make -j"$(nproc)" --output-sync=target test
echo "host tests: all passed"
