#!/bin/sh
# Prints docs/EDITS.md: the must-fail edits by crate, each with what it gets wrong, as its first line says.
set -eu
cd "$(dirname "$0")/.."
cat <<'HEAD'
# The must-fail edits

Each edit makes one fault in a copy of its crate, in a definition (`specs/`) or in the code (`src/`), and `rt ci` fails unless the
prover refuses that copy. The right-hand column is the rule that the fault breaks. `rt must-fail NAME` tries those of one crate
and prints the first error of each. This page is what `scripts/list-edits.sh` prints.
HEAD

# Two wrong programs at least for each call; each must be there.
printf '\n## By call\n\nWrong programs that a call'"'"'s contract rules out, in the lowest crates that have a part of it.\n\n| Call | Edits |\n|---|---|\n'
while read -r call edits; do
    row=
    for edit in $edits; do
        [ -f "crates/${edit%/*}/must-fail/${edit#*/}.edit" ] || { echo "scripts/list-edits.sh: no edit $edit" >&2; exit 1; }
        row="$row, \`$edit\`"
    done
    printf '| %s | %s |\n' "$call" "${row#, }"
done <<'CALLS'
reset adapter/reset_vid_right_480 adapter/reset_nibble_mask_0
write_byte adapter/write_with_any_memory access/data_at_12 vram_port/store_at_the_read_address
read_byte xosera/refused_read_gives_255 host_reads/xr_buffer_at_10
interrupt_line adapter/line_turned xosera/refused_line_up
blit_step queue/whole_blit_in_a_step engine/draw_answers_the_value
blit_run adapter_steps/run_of_65535_at_most adapter_steps/run_count_invented queue_runs/run_n_for_each_blit
timer_tick timer/tick_sets_bit_4 timer/countdown_never_starts_again
beam_step adapter_steps/beam_step_as_a_tick copper/second_word_two_on beam/beam_by_two_pixels
save saving/exact_room_too_short xosera/refused_save_reports_a_length saving/short_room_is_done
load saving/longer_vram_taken saving/not_saved_is_9
why why/passes_a_reach why/written_before_forgotten
paint paint/refused_line_painted paint/row_wraps_at_32768
grey grey/every_colour_is_black grey/colours_of_eleven_bits
paint_grey paint_grey/line_not_mapped paint_grey/memories_swapped
CALLS
sed -n 's/^\([a-z_]*\)\( staticlib\)\{0,1\}:.*/\1/p' crates.txt | while read -r crate; do
    [ -d "crates/$crate/must-fail" ] || continue
    printf '\n## %s: %s\n\n| Edit | In | The rule |\n|---|---|---|\n' "$crate" "$(find "crates/$crate/must-fail" -name '*.edit' | wc -l)"
    for edit in "crates/$crate/must-fail"/*.edit; do
        # shellcheck disable=SC2016  # the backquotes are markdown
        printf '| `%s` | `%s` | %s |\n' "$(basename "$edit" .edit)" "$(sed -n 's/^file: //p' "$edit")" "$(sed -n '1s/^# //p' "$edit")"
    done
done
