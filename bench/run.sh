#!/bin/sh
# Measures `volt run` beside the plain program, at 1,000, 10,000 and 100,000 calls, and compares their reports.
# It prints the rows of the table in README.md.
set -eu
bench=$(CDPATH='' cd -- "$(dirname -- "$0")" && pwd)
program=$bench/../crates/volt_main/out/volt_main
room=$(mktemp -d)
trap 'rm -rf "$room"' EXIT

"$bench/../volt" run < "$bench/../examples/first.volt" > /dev/null    # builds the program where it isn't there
rustc -O --edition 2024 -o "$room/plain" "$bench/plain.rs"

echo "| calls | volt run | plain Rust |"
echo "|---|---|---|"
for calls in 1000 10000 100000; do
    python3 "$bench/make_input.py" "$calls" > "$room/input"
    proved=$(python3 "$bench/measure.py" "$room/input" "$room/proved" "$program" run)
    plain=$(python3 "$bench/measure.py" "$room/input" "$room/plain_report" "$room/plain")
    cmp "$room/proved" "$room/plain_report"
    echo "| $calls | $proved | $plain |"
done
