#!/bin/sh
# resolver.sh [--quick] [--runs N]: measures the resolver against the baseline; --quick leaves out the greatest size.
# RESOLVER may name the program of resolver/main.rt.txt, else it is proved and built here, which takes minutes to hours.
. "$(dirname "$0")/common.sh"

rustc -O --edition 2021 -o "$folder/baseline" "$here/baseline/resolver.rs"
if [ -z "${RESOLVER:-}" ]; then
    lay_out resolver simplex_resolver simplex_messages simplex_types types_core
    build row 1 1
fi
python3 -B "$here/measure_resolver.py" --baseline "$folder/baseline" \
    --simplex "${RESOLVER:-$folder/resolver}" "$@"
