#!/bin/sh
# node.sh [--quick] [--runs N] [--instructions | --memory | --rewrites | --disk FOLDER]: measures a member's node against the baseline;
# --quick makes few runs over shorter histories. In place of times, --instructions counts instructions and --memory weighs the heap,
# which need valgrind, and --disk keeps the record in a file of that folder, beside what as many bare syncs cost there. --rewrites
# measures the node alone, over two disks, in memory or with --disk in files: with its record rewritten each 1,000 views, and never;
# it needs a C compiler, and some ten minutes.
# NODE may name the program of node/main.rt.txt, else it is proved and built here, which takes minutes to hours.
. "$(dirname "$0")/common.sh"

case " $* " in
    *" --rewrites "*) cc -O2 -shared -fPIC -o "$folder/heap.so" "$here/heap.c" -ldl ;;
esac
rustc -O --edition 2021 -o "$folder/baseline" "$here/baseline/node.rs"
if [ -z "${NODE:-}" ]; then
    lay_out node node_steps simplex_member voter_rules journal_books journal_single types_terms simplex_messages simplex_types types_core
    build finalized 4 1 1 memory
fi
python3 -B "$here/measure_node.py" --baseline "$folder/baseline" \
    --simplex "${NODE:-$folder/node}" --heap "$folder/heap.so" "$@"
