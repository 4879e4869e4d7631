#!/usr/bin/env python3
"""Reads an input of the form that `volt run` reads, and writes the report that one plain table gives.

It has no cluster: the stamps and the events of a call are known beforehand.
"""

import sys

EVENTS = [
    "submit c1",
    "deliver d c1",
    "deliver h0 c1",
    "deliver s0 h0",
    "sync s0",
    "deliver h0 s0",
    "deliver c1 h0",
]
POINT = 4  # the place among them of the event that puts the call into the log


def reply(rows, procedure, arguments):
    if procedure == "Get":
        (key,) = arguments
        return f"ok 1\n {rows[key]}" if key in rows else "ok 0"
    key, balance = arguments
    if key in rows:
        return "abort fault Duplicate"
    rows[key] = balance
    return "ok 1\n 1"


def report(lines):
    rows, calls = {}, []
    for line in lines:
        if line.startswith("client 1 call "):
            _, _, _, procedure, *arguments = line.split()
            calls.append(reply(rows, procedure, [int(argument) for argument in arguments]))
    count = len(calls)
    yield f"volt 1\nopening 0\ncalls {count}"
    for place, answer in enumerate(calls):
        submitted = place * len(EVENTS) + 1
        yield f"{place + 1} 1 {submitted} {submitted + len(EVENTS) - 1} {answer}"
    yield f"serial {count}"
    for place in range(count):
        yield f"{place * len(EVENTS) + POINT} {place + 1}"
    yield f"copies 1\ncopy 0 {count} {len(rows)}"
    for key in sorted(rows):
        yield f" acct {key} {rows[key]}"
    yield f"looks 0\ntrace {count * len(EVENTS)}"
    for _ in range(count):
        yield from EVENTS
    yield "end"


sys.stdout.writelines(f"{line}\n" for line in report(sys.stdin))
