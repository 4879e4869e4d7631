#!/bin/sh
# Measures `parse_ddl` beside `lex` over 2,500 to 20,000 procedures. It prints the rows of the table in ../README.md. The
# proved program is made in a room of its own, of this repository's crates and main.rt.in, since a crate under bench/ would
# belong to what `rt ci` proves.
set -eu
bench=$(CDPATH='' cd -- "$(dirname -- "$0")" && pwd)
crates='volt_text volt_value sql_grammar expr_parse sql_parse ddl_parse'
room=$(mktemp -d)
trap 'rm -rf "$room"' EXIT

mkdir -p "$room/crates/parse_bench/src"
(cd "$bench/../../crates" && tar --exclude out -cf - $crates) | tar -C "$room/crates" -xf -
cp "$bench/main.rt.in" "$room/crates/parse_bench/src/main.rt"
for crate in $crates; do grep "^$crate:" "$bench/../../crates.txt"; done > "$room/crates.txt"
echo 'parse_bench: volt_text ddl_parse' >> "$room/crates.txt"
cp "$bench/../../HANDLES" "$room/HANDLES"
(cd "$room/crates/parse_bench" && rt run < /dev/null > "$room/said" 2>&1) || { cat "$room/said" >&2; exit 1; }

echo "| procedures | tokens | lex | parse_ddl | parse_ddl to lex |"
echo "|---|---|---|---|---|"
for procedures in 2500 5000 10000 20000; do
    python3 "$bench/make_procedures.py" "$procedures" > "$room/text"
    "$room/crates/parse_bench/out/parse_bench" < "$room/text" > "$room/row"
    awk '{ printf "| %d | %d | %.1f ms | %.1f ms | %.2f |\n", $1, $2, $3 / 1000, $4 / 1000, $4 / $3 }' "$room/row"
done
