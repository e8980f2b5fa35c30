#!/bin/sh
# Programs that must not compile, and programs that must.
#
#   tests/compile/run.sh
#
# A program in refused/ names words of its message in comments, "refused: words": the first error
# that the compiler gives must have the first of them, and each of the others must be in some error.
# A program in accepted/ must give no warning. Each is tried as C11 and as C++17, with those of gcc
# and clang that are installed.
set -eu
cd "$(dirname "$0")/../.."

log=$(mktemp)
words=$(mktemp)
trap 'rm -f "$log" "$words"' EXIT
tried=
refused=0
accepted=0
wrong=0

# wrong program compiler reason: say so, with what the compiler said.
wrong() {
    echo "$1, $2: $3"
    sed 's/^/    /' "$log"
    wrong=$((wrong + 1))
}

# compile compiler program: what it says goes to the log.
compile() {
    case $1 in
    *++*) "$1" -x c++ -std=c++17 -Wall -Wextra -Wpedantic -Iinclude -fsyntax-only "$2" ;;
    *) "$1" -x c -std=c11 -Wall -Wextra -Wpedantic -Iinclude -fsyntax-only "$2" ;;
    esac >"$log" 2>&1
}

# The words are all said, the first of them in the first error.
said() {
    sed -n 's/^[ /]\*\{1,2\} *refused: \(.*[^ ]\) *$/\1/p' "$1" | sed 's/ *\*\/$//' >"$words"
    [ -s "$words" ] || return 1
    grep 'error: ' "$log" | head -n 1 | grep -q -F -e "$(head -n 1 "$words")" || return 1
    while read -r line; do
        grep 'error: ' "$log" | grep -q -F -e "$line" || return 1
    done <"$words"
}

must_not_compile() {
    if compile "$1" "$2"; then
        wrong "$2" "$1" "compiled, and must not"
    elif ! said "$2"; then
        wrong "$2" "$1" "refused with other words"
    else
        refused=$((refused + 1))
    fi
}

must_compile() {
    if ! compile "$1" "$2" || [ -s "$log" ]; then
        wrong "$2" "$1" "did not compile, and must"
    else
        accepted=$((accepted + 1))
    fi
}

for compiler in gcc g++ clang clang++; do
    command -v "$compiler" >/dev/null || continue
    tried="$tried $compiler"
    for program in tests/compile/refused/*.c; do
        must_not_compile "$compiler" "$program"
    done
    for program in tests/compile/accepted/*.c; do
        must_compile "$compiler" "$program"
    done
done
echo "compile tests with${tried:- nothing}: $refused refused, $accepted accepted as they must be; $wrong not"
[ -n "$tried" ] && [ "$wrong" -eq 0 ]
