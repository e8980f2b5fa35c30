#!/bin/sh
# Whether the old text of every must-fail edit stands once in its file; rt says so too, but late, and as a bad edit.
set -eu
cd "$(dirname "$0")/.."
bad=0
for edit in crates/*/must-fail/*.edit; do
    crate=${edit%/must-fail/*}
    file=
    while IFS= read -r line || [ -n "$line" ]; do
        case $line in
        'file: '*) file=$crate/${line#file: } ;;
        'old: '*)
            times=$(grep -oF -e "${line#old: }" "$file" | wc -l)
            [ "$times" -eq 1 ] || { echo "$edit: stands $times times in $file: ${line#old: }"; bad=1; }
            ;;
        esac
    done <"$edit"
done
exit $bad
