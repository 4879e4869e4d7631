# Read by the scripts beside it: a room with the crates that tables stand on, as they are, and programs over them.
bench=$(CDPATH='' cd -- "$(dirname -- "$0")" && pwd)
room=$(mktemp -d)
trap 'rm -rf "$room"' EXIT
below='volt_value volt_catalog tuple_block cow_scan pane_index volt_index undo_log row_codec table_rows table_store'

mkdir "$room/crates"
# shellcheck disable=SC2086
(cd "$bench/../../crates" && tar --exclude out -cf - $below) | tar -C "$room/crates" -xf -
cp "$bench/../../HANDLES" "$room/"
grep -E "^($(echo "$below" | tr ' ' '|')):" "$bench/../../crates.txt" > "$room/crates.txt"
git -C "$room" init -q

# program NAME FILE: proves the program of a file and builds it, as $room/crates/NAME/out/NAME.
program() {
    echo "$1: volt_value volt_catalog volt_index undo_log row_codec table_rows table_store" >> "$room/crates.txt"
    mkdir -p "$room/crates/$1/src"
    cp "$bench/$2" "$room/crates/$1/src/main.rt"
    (cd "$room/crates/$1" && rt run < /dev/null) > "$room/said" 2>&1 || { tail -20 "$room/said" >&2; exit 1; }
}
