#!/bin/sh
# Builds and runs all C in README.md and docs/ as it stands there; extract.awk says what is a program.
# CC, CFLAGS and LIB are those of the Makefile, which calls this. Stops at the first fault.
# shellcheck disable=SC2016  # fences of a document are no command substitutions
set -eu
cd "$(dirname "$0")/../.."
: "${CC:=cc}" "${CFLAGS:=-std=c11 -O1 -Wall -Wextra -Wpedantic -Werror -Iinclude}" "${LIB:?}"
case $LIB in /*) ;; *) LIB=$PWD/$LIB ;; esac
made=build/docs
rm -rf "$made"
mkdir -p "$made/run"

# Prints the programs made of a document's C, or fails with what is wrong.
extract() { # DOCUMENT PREFIX
    awk -v document="$1" -v out="$2" -f tests/docs/extract.awk "$1"
}

# Each of these texts must be refused.
refused() { # WHAT TEXT
    printf '%b' "$2" >"$made/refused.md"
    if extract "$made/refused.md" "$made/refused" >/dev/null 2>&1; then
        echo "tests/docs/extract.awk takes $1" >&2
        exit 1
    fi
}
refused 'an indented statement' 'So:\n\n    xm_setw(WR_ADDR, a);\n'
refused 'a statement with a comment behind it' 'So:\n\n    x = 1; /* one */\n'
refused 'an indented include' '    #include <errno.h>\n'
refused 'C in a block without a language' '```\nx = 1;\n```\n'
refused 'C behind a fenced block' '```c\nx = 1;\n```\n    x = 2;\n'
refused 'a fence of tildes' '~~~\nx = 1;\n~~~\n'
refused 'another language' '```cpp\nx = 1;\n```\n'
refused 'a block without an end' '```c\nx = 1;\n'
refused 'a main without an end' '```c\nint main(void)\n{\n```\n'

build_and_run() { # DOCUMENT PROGRAM
    # shellcheck disable=SC2086  # a list of flags
    $CC $CFLAGS -Itests/docs -o "${2%.c}" "$2" "$LIB"
    if ! (cd "$made/run" && timeout 120 "../$(basename "$2" .c)") >"${2%.c}.log" 2>&1; then
        cat "${2%.c}.log"
        echo "$1: its C fails" >&2
        exit 1
    fi
}

for document in README.md docs/*.md docs/*/*.md; do
    name=$(echo "${document%.md}" | tr / _)
    extract "$document" "$made/$name" >"$made/$name.list"
    while read -r program blocks; do
        build_and_run "$document" "$program"
        echo "$document: $blocks" >>"$made/blocks"
    done <"$made/$name.list"
done
awk -F ': ' '{ n[$1] += $2; programs[$1]++ }
    END { for (d in n) print d ": its C holds (blocks: " n[d] ", programs: " programs[d] ")" }' \
    "$made/blocks" | sort
