"""Random calls on two tables of people, and what a list of rows answers to them.

list_model.py SEED CALLS: writes the calls to the file `calls` and the answers to the file `wanted`. A table is a list of
rows, and what can be undone a list of copies of both tables."""

import random
import sys

SEED, CALLS = int(sys.argv[1]), int(sys.argv[2])
NAMES = ["-", "a", "b", "ab", "ba", "abc", "abcd", "dcba", "Ab", "zz", "long!", "é", "éé", "ééa"]
SUMS = ["-", "0", "1", "-1", "7", "-9", "100", "9223372036854775807", "-9223372036854775807", "-9223372036854775808"]
IDS = [str(n) for n in range(-40, 120)] + ["-", "2147483647", "2147483648", "-2147483647", "-2147483648"]

tables = [[], []]
marks = []
begun = None


def value(word):
    return None if word == "-" else int(word)


def order(v):
    """NULL comes before every value. Texts go by their bytes."""
    return (0,) if v is None else (1, v.encode() if isinstance(v, str) else v)


def sorted_by(key, rows):
    columns = ((0,), (1,), (2, 0))[key]
    return sorted(rows, key=lambda row: [order(row[c]) for c in columns])


def shown(rows):
    return "".join("".join(("-" if v is None else str(v)) + " " for v in row) + "; " for row in rows)


def fault(row, others):
    """The first fault of a row beside others: none, then 'yes'."""
    id, name, total = row
    if id is None:
        return "NullInColumn"
    if abs(id) > 2**31 - 1 or (total is not None and abs(total) > 2**63 - 1):
        return "OutOfRange"
    if name is not None and len(name.encode()) > 4:
        return "TooLong"
    if any(other[0] == id or other[1] == name for other in others):
        return "Duplicate"
    return "yes"


def copies():
    return [list(rows) for rows in tables]


def change(words):
    """The answer of a call that changes a table."""
    rows = tables[int(words[1])]
    id = value(words[2])
    if words[0] == "take":
        left = [row for row in rows if row[0] != id]
        held = len(left) < len(rows)
        rows[:] = left
        return "yes" if held else "no"
    row = (id, None if words[3] == "-" else words[3], value(words[4]))
    others = [other for other in rows if words[0] == "put" or other[0] != id]
    if words[0] == "set" and len(others) == len(rows):
        return "no"
    said = fault(row, others)
    if said == "yes":
        rows[:] = others + [row]
    return said


def read(words):
    rows = tables[int(words[1])]
    if words[0] == "get":
        return shown([row for row in rows if row[0] == value(words[2])])
    key = int(words[2])
    bound = lambda word: order(word if key == 1 else int(word))
    found = sorted_by(key, rows)
    if words[3] != "-":
        found = [row for row in found if order(row[key]) >= bound(words[3])]
    if words[4] != "-":
        found = [row for row in found if order(row[key]) <= bound(words[4])]
    return shown(found)


def answer(words):
    """The answer of a call. `begun` are the tables as they stood where nothing was yet to be undone."""
    global begun
    if words[0] == "mark":
        marks.append(copies())
        return "yes"
    if words[0] == "release":
        marks.clear()
        begun = copies()
        return "yes"
    if words[0] == "back":
        held = bool(marks)
        for rows, old in zip(tables, marks.pop() if held else begun):
            rows[:] = old
        return "yes" if held else "no"
    return read(words) if words[0] in ("get", "rows") else change(words)


def picked(source):
    table = str(source.randrange(2))
    kind = source.choices(("put", "set", "take", "get", "rows", "mark", "back", "release"), (30, 20, 12, 15, 12, 5, 4, 2))[0]
    if kind in ("put", "set"):
        return [kind, table, source.choice(IDS), source.choice(NAMES) if source.random() < 0.3 else f"{source.randrange(2000):x}", source.choice(SUMS)]
    if kind in ("take", "get"):
        return [kind, table, source.choice(IDS)]
    if kind == "rows":
        key = source.randrange(3)
        bound = lambda: "-" if source.random() < 0.2 else source.choice([x for x in (IDS, NAMES, SUMS)[key] if x != "-"])
        return [kind, table, str(key), bound(), bound()]
    return [kind]


begun = copies()
source = random.Random(SEED)
with open("calls", "w") as calls, open("wanted", "w") as wanted:
    for _ in range(CALLS):
        words = picked(source)
        calls.write(" ".join(words) + "\n")
        wanted.write(answer(words) + "\n")
    for table in "01":
        for key in "012":
            words = ["rows", table, key, "-", "-"]
            calls.write(" ".join(words) + "\n")
            wanted.write(answer(words) + "\n")
