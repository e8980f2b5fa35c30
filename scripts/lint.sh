#!/bin/sh
# Formats and lints: versions, the old texts of edits, the table of levels, C, Rust, shell, headers; stops at the first that is
# not clean. Needs no library.
# Installs what Debian has and this machine lacks.
set -eu
cd "$(dirname "$0")/.."
. scripts/setup.sh
need make command -v make
need g++ command -v g++
need clang command -v clang++
need clang-format command -v clang-format
need clang-tidy command -v clang-tidy
need shellcheck command -v shellcheck
need cargo command -v cargo
need rustfmt cargo fmt --version
need rust-clippy cargo clippy --version
install_missing

# Runs a tool without its output; shows it where the tool finds something.
log=$(mktemp)
trap 'rm -f "$log"' EXIT
clean() {
    "$@" >"$log" 2>&1 || { cat "$log"; echo "lint: not clean: $*"; exit 1; }
}

scripts/check-version.sh
clean scripts/check-edits.sh
clean sh -c 'scripts/grey-levels.sh | diff crates/grey/src/levels.rt -'
clean find include examples tests \( -name '*.[ch]' -o -name '*.cpp' \) \
    -exec clang-format --dry-run -Werror {} +
clean shellcheck -x .ci/run scripts/*.sh tests/*/*.sh
clean env -C tests/rust cargo fmt --check
clean env -C tests/rust cargo clippy --quiet --all-targets -- -D warnings
clean clang-tidy --quiet tests/install/program.c -- -std=c11 -Iinclude
clean clang-tidy --quiet tests/install/program.cpp -- -std=c++17 -Iinclude
clean make test-headers CC=clang CXX=clang++
echo "lint: C, Rust, shell and headers are clean"
