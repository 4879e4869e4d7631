#!/bin/sh
# Makes random calls on tables, and compares each answer with that of lists of rows. calls.sh [SEED [CALLS]]
set -eu
. "$(dirname -- "$0")/room.sh"
program tables_calls calls.rt.in
cd "$room"
python3 "$bench/list_model.py" "${1:-1}" "${2:-100000}"
crates/tables_calls/out/tables_calls < calls > given
cmp given wanted
echo "$(wc -l < given) answers are alike"
