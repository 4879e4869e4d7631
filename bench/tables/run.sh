#!/bin/sh
# Measures tables beside ordered maps in Rust and SQLite in memory, in turn, and prints the tables in ../README.md.
set -eu
. "$(dirname -- "$0")/room.sh"
program tables_bench main.rt.in
rustc -O --edition 2024 -o "$room/plain" "$bench/plain.rs"
cc -O2 -o "$room/sqlite" "$bench/sqlite.c" -lsqlite3
python3 "$bench/measure.py" "$room/crates/tables_bench/out/tables_bench" "$room/plain" "$room/sqlite" "$@"
