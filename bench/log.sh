#!/bin/sh
# Measures 200 appends of 60 bytes through a FileDisk beside a bare loop in C on the same folder.
# It prints the table in README.md. The program is built in a folder of its own, over the crates as they are.
set -eu
bench=$(CDPATH='' cd -- "$(dirname -- "$0")" && pwd)
room=$(mktemp -d)
trap 'rm -rf "$room"' EXIT

mkdir -p "$room/crates/bench_append/src"
for crate in volt_base volt_disk gate_log; do
    mkdir "$room/crates/$crate"
    for part in src specs proofs; do
        cp -r "$bench/../crates/$crate/$part" "$room/crates/$crate/"
    done
done
cp "$bench/../HANDLES" "$room/"
grep -E '^(volt_base|volt_disk|gate_log):' "$bench/../crates.txt" > "$room/crates.txt"
echo 'bench_append: volt_disk gate_log' >> "$room/crates.txt"
cp "$bench/append.txt" "$room/crates/bench_append/src/main.rt"
git -C "$room" init -q
mkdir -p "$room/crates/bench_append/bench-log" "$room/bench-log"
(cd "$room/crates/bench_append" && rt run > "$room/log" 2>&1) || { tail -20 "$room/log"; exit 1; }
cc -O2 -o "$room/plain" "$bench/append.c"

cd "$room"
python3 - "$room/crates/bench_append/out/bench_append" "$room/plain" <<'PYTHON'
import os, statistics, subprocess, sys, time
spent = ([], [])
for _ in range(20):
    for program, times in zip(sys.argv[1:], spent):
        if os.path.exists("bench-log/1.vf"):
            os.remove("bench-log/1.vf")
        start = time.monotonic()
        subprocess.run([program], check=True)
        times.append((time.monotonic() - start) * 1000)
print("| of 20 runs | FileDisk | C | ratio |")
print("|---|---|---|---|")
for name, of in (("least", min), ("median", statistics.median)):
    proved, plain = of(spent[0]), of(spent[1])
    print(f"| {name} | {proved:.0f} ms | {plain:.0f} ms | {proved / plain:.2f} |")
PYTHON
