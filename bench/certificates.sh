#!/bin/sh
# certificates.sh [--quick] [--runs N]: measures certificates against the baseline; --quick leaves out the greatest size.
# CERTIFICATES may name the program of certificates/main.rt.txt, else it is proved and built here, which takes minutes.
. "$(dirname "$0")/common.sh"

rustc -O --edition 2021 -o "$folder/baseline" "$here/baseline/certificates.rs"
if [ -z "${CERTIFICATES:-}" ]; then
    lay_out certificates simplex_messages simplex_types types_core
    python3 -B "$here/measure_certificates.py" --input 4 >"$folder/four"
    build write 4 1 <"$folder/four"
fi
python3 -B "$here/measure_certificates.py" --folder "$folder" --baseline "$folder/baseline" \
    --simplex "${CERTIFICATES:-$folder/certificates}" "$@"
