"""Runs three programs in turn on tables of several sizes, and prints tables of how they compare.

measure.py OURS PLAIN SQLITE [ROUNDS [GREATEST]]: each ratio is the median over the rounds of the ratio within a round, and
behind the slash stands the ratio of the least times of all rounds. GREATEST is the most rows. A run whose counts differ from
those of the plain program ends the measuring."""

import statistics
import subprocess
import sys

OURS, PLAIN, SQLITE = PROGRAMS = sys.argv[1:4]
ROUNDS = int(sys.argv[4]) if len(sys.argv) > 4 else 5
GREATEST = int(sys.argv[5]) if len(sys.argv) > 5 else 1000000
WORK = ("insert", "read", "update", "range", "undo", "delete")
POINT = ("insert", "read", "update", "delete")
SIZES = [rows for rows in (1000, 10000, 100000, 1000000) if rows <= GREATEST]


def start(program, table, rows):
    """What a run said of each kind of work, as a count and microseconds, and the KiB of memory that it took."""
    run = subprocess.run(["/usr/bin/time", "-f", "%M", program], input=f"{table} {rows}\n", capture_output=True, text=True)
    if run.returncode:
        sys.exit(f"{program} on {table} {rows} ended with {run.returncode}: {run.stderr}")
    lines = (line.split() for line in run.stdout.splitlines())
    return {name: (int(count), max(int(micros), 1)) for name, count, micros in lines}, int(run.stderr.split()[-1])


def around(program, table, rows):
    """The memory of a run above that of a run on one row, in bytes, and what the run said."""
    said, full = start(program, table, rows)
    _, bare = start(program, table, 1)
    return said, (full - bare) * 1024


def agree(table, rows, runs):
    for program in (OURS, SQLITE):
        for name in WORK:
            if runs[program][name][0] != runs[PLAIN][name][0]:
                sys.exit(f"{program} counts another {name} of {table}: {runs[program][name][0]} for {runs[PLAIN][name][0]}")


def measured(table):
    """For each round and number of rows: what each program said, and its memory."""
    rounds = []
    for _ in range(ROUNDS):
        sizes = {}
        for rows in SIZES:
            taken = {program: around(program, table, rows) for program in PROGRAMS}
            agree(table, rows, {program: said for program, (said, _) in taken.items()})
            sizes[rows] = taken
        rounds.append(sizes)
    return rounds


def cell(pairs):
    """The median of the ratios of pairs, and the ratio of the least of each side."""
    median = statistics.median(one / other for one, other in pairs)
    return f"{median:.2f} / {min(one for one, _ in pairs) / min(other for _, other in pairs):.2f}"


def micros(sizes, rows, program, name):
    return sizes[rows][program][0][name][1]


def per_call(sizes, rows, program, name):
    return micros(sizes, rows, program, name) / sizes[rows][program][0][name][0]


def ratios(rounds, table, one, other, title):
    heads = " | ".join(f"{rows} rows" for rows in SIZES)
    print(f"\n| {table}, {title} | {heads} |\n" + "|---" * (len(SIZES) + 1) + "|")
    for name in WORK:
        cells = (cell([(micros(s, rows, one, name), micros(s, rows, other, name)) for s in rounds]) for rows in SIZES)
        print(f"| {name} | " + " | ".join(cells) + " |", flush=True)


def growth(rounds, table):
    few, many = SIZES[min(1, len(SIZES) - 1)], SIZES[-1]
    print(f"\n| {table}, a call at {many} rows / at {few} | volt | maps | SQLite |\n|---|---|---|---|")
    for name in POINT:
        cells = (cell([(per_call(s, many, p, name), per_call(s, few, p, name)) for s in rounds]) for p in PROGRAMS)
        print(f"| {name} | " + " | ".join(cells) + " |", flush=True)


def memory(rounds):
    rows = SIZES[-1]
    values = rounds[0][rows][PLAIN][0]["bytes"][0]
    return [f"{statistics.median(s[rows][p][1] for s in rounds) / values:.2f}" for p in PROGRAMS]


kept = {}
for table in ("acct", "wide"):
    rounds = measured(table)
    for one, other, title in ((OURS, PLAIN, "volt / maps"), (OURS, SQLITE, "volt / SQLite"), (SQLITE, PLAIN, "SQLite / maps")):
        ratios(rounds, table, one, other, title)
    growth(rounds, table)
    kept[table] = memory(rounds)
print(f"\n| memory of {SIZES[-1]} rows / bytes of their values | volt | maps | SQLite |\n|---|---|---|---|")
for table, cells in kept.items():
    print(f"| {table} | " + " | ".join(cells) + " |")
