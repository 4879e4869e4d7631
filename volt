#!/bin/sh
# Runs the proved program with the words that are given. Where it isn't built, or a file that it is made of has
# changed, it is proved and built first. What this script itself says goes to standard error. Its status is the
# program's, or 70 where there is no program to run.
set -eu

top=$(CDPATH='' cd -- "$(dirname -- "$0")" && pwd)
program=$top/crates/volt_main/out/volt_main
# It says of which files the program beside it was made, and which program that is.
note=$program.made_of

is_current() {
    [ -x "$program" ] && [ -f "$note" ] &&
        [ "$("$top/tools/made_of" && cksum < "$program")" = "$(cat "$note")" ]
}

# The build ends with a run of the first example, so it succeeds where the program is there and runs.
build() {
    made_of=$("$top/tools/made_of") &&
        rm -f "$note" &&
        (cd "$top/crates/volt_main" && rt run -- run < "$top/examples/first.volt" >&2) &&
        { printf '%s\n' "$made_of" && cksum < "$program"; } > "$note"
}

fail() {
    echo "volt: $1" >&2
    exit 70
}

if ! is_current; then
    command -v rt > /dev/null || fail "the command rt of the Rattle kit isn't on the PATH"
    echo "volt: proving and building the program and all that it stands on; later runs start at once" >&2
    build || fail "the program could not be built"
fi
exec "$program" "$@"
