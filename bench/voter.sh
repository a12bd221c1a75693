#!/bin/sh
# voter.sh [--quick] [--runs N]: measures a voter against the baseline; --quick makes few runs over shorter histories.
# VOTER may name the program of voter/main.rt.txt, else it is proved and built here, which takes minutes to hours.
. "$(dirname "$0")/common.sh"

rustc -O --edition 2021 -o "$folder/baseline" "$here/baseline/voter.rs"
if [ -z "${VOTER:-}" ]; then
    lay_out voter simplex_state simplex_resolver voter_history types_terms simplex_messages simplex_types types_core
    build finalized 4 1 1
fi
python3 -B "$here/measure_voter.py" --baseline "$folder/baseline" \
    --simplex "${VOTER:-$folder/voter}" "$@"
