#!/bin/sh
# Prints crates/grey/src/levels.rt, the table of grey levels, by the formula of request 7. The proof of crate grey computes each level
# again and takes nothing from here.
set -eu
cat <<'HEAD'
// The level of each colour 0xRGB, a digit each: word RG has those of blue 0 to 15 from left to right. This file is what
// scripts/grey-levels.sh prints.
pub static LEVELS: [u64; 256] = [
HEAD
awk 'BEGIN {
    for (red = 0; red < 16; red++) {
        for (green = 0; green < 16; green++) {
            word = ""
            for (blue = 0; blue < 16; blue++) {
                word = word sprintf("%X", int((299 * red + 587 * green + 114 * blue + 500) / 1000))
            }
            printf "    0x%s,\n", word
        }
    }
}'
echo "];"
