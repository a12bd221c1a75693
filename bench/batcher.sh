#!/bin/sh
# batcher.sh [--quick] [--runs N] [--instructions] [--memory]: measures a round of votes against the baseline; --quick makes few
# runs, --instructions counts instructions and --memory the bytes of the heap in place of times, which need valgrind.
# BATCHER may name the program of batcher/main.rt.txt, else it is proved and built here, which takes minutes to hours.
. "$(dirname "$0")/common.sh"

rustc -O --edition 2021 -o "$folder/baseline" "$here/baseline/batcher.rs"
if [ -z "${BATCHER:-}" ]; then
    lay_out batcher simplex_batcher simplex_messages simplex_types types_core
    build add 4 1
fi
python3 -B "$here/measure_batcher.py" --baseline "$folder/baseline" \
    --simplex "${BATCHER:-$folder/batcher}" "$@"
