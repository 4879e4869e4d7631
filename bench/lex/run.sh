#!/bin/sh
# Measures `lex` beside a plain loop in Rust over 64 MiB of SQL, and compares what they count. It prints a row of the
# table in ../README.md. The proved program is made in a room of its own, of this repository's crate `volt_text` and
# main.rt.in, since a crate under bench/ would belong to what `rt ci` proves.
set -eu
bench=$(CDPATH='' cd -- "$(dirname -- "$0")" && pwd)
room=$(mktemp -d)
trap 'rm -rf "$room"' EXIT

mkdir -p "$room/crates/lex_bench/src"
(cd "$bench/../../crates" && tar --exclude out -cf - volt_text) | tar -C "$room/crates" -xf -
cp "$bench/main.rt.in" "$room/crates/lex_bench/src/main.rt"
printf 'volt_text:\nlex_bench: volt_text\n' > "$room/crates.txt"
python3 "$bench/make_sql.py" "${1:-64}" > "$room/sql"
rustc -O --edition 2024 -o "$room/plain" "$bench/plain.rs"
(cd "$room/crates/lex_bench" && rt run < "$room/sql" > "$room/said" 2>&1) || { cat "$room/said" >&2; exit 1; }

# least PROGRAM: what it counts, and the least time of three starts.
least() {
    for _ in 1 2 3; do "$1" < "$room/sql"; done | sort -t , -k 3 -n | head -n 1
}
proved=$(least "$room/crates/lex_bench/out/lex_bench")
plain=$(least "$room/plain")
[ "${proved%,*}" = "${plain%,*}" ] || { echo "other tokens: $proved; $plain" >&2; exit 1; }
echo "| lex | plain loop |"
echo "|---|---|"
echo "| $proved | $plain |"
