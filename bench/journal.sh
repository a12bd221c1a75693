#!/bin/sh
# journal.sh [--quick] [--rounds N] [--place FOLDER]: measures the journal against the baseline, in files of that folder;
# --quick appends a tenth.
# JOURNAL may name the program of journal/main.rt.txt, else it is proved and built here, which takes minutes.
. "$(dirname "$0")/common.sh"

rustc -O --edition 2021 -o "$folder/baseline" "$here/baseline/journal.rs"
if [ -z "${JOURNAL:-}" ]; then
    lay_out journal journal_single simplex_messages simplex_types types_core
    build memory 1
fi
python3 -B "$here/measure_journal.py" --place "$folder" --baseline "$folder/baseline" \
    --simplex "${JOURNAL:-$folder/journal}" "$@"
