#!/bin/sh
# Makes and drops 100,000 blocks of 512 KiB in 400 MB of address space, and prints how many bytes were found in them. Blocks
# that aren't freed end it with a refusal. The proved program is made in a room of its own, over the crate as it is.
set -eu
bench=$(CDPATH='' cd -- "$(dirname -- "$0")" && pwd)
room=$(mktemp -d)
trap 'rm -rf "$room"' EXIT

mkdir -p "$room/crates/blocks_bench/src"
(cd "$bench/../../crates" && tar --exclude out -cf - tuple_block) | tar -C "$room/crates" -xf -
cp "$bench/../../HANDLES" "$room/"
grep '^tuple_block:' "$bench/../../crates.txt" > "$room/crates.txt"
echo 'blocks_bench: tuple_block' >> "$room/crates.txt"
cp "$bench/main.rt.in" "$room/crates/blocks_bench/src/main.rt"
git -C "$room" init -q
(cd "$room/crates/blocks_bench" && rt run > "$room/said" 2>&1) || { tail -20 "$room/said" >&2; exit 1; }
ulimit -v 400000
"$room/crates/blocks_bench/out/blocks_bench"
