#!/bin/sh
# run.sh [--quick] [--runs N] [--instructions] [SIMPLEX]: measures simplex's audit against both baselines; --quick leaves out
# the greatest size, --instructions counts instructions in place of all else, which needs valgrind.
# SIMPLEX is the path of the program, and may be named in the environment instead.
. "$(dirname "$0")/common.sh"

for program in audit lazy; do
    rustc -O --edition 2021 -o "$folder/$program" "$here/baseline/$program.rs"
done
python3 "$here/measure.py" --baseline "$folder/audit" --lazy "$folder/lazy" --folder "$folder" "$@"
