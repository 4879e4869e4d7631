#!/usr/bin/env python3
"""Writes an input of so many calls: Puts of distinct ids and Gets in turn, the same ones at each run."""

import sys

HEAD = "../examples/empty.volt"
GREATEST = 2**63 - 1


def numbers(seed):
    """Goes through numbers from 0 to 2^64 - 1: a linear congruence, of which the high half is mixed into the low."""
    state = seed
    while True:
        state = (state * 6364136223846793005 + 1442695040888963407) % 2**64
        yield state ^ state >> 32


def calls(count):
    drawn, ids = numbers(1), []
    known = set()
    for number in range(count):
        if number % 2 == 0:
            key = next(drawn) % (2 * GREATEST + 1) - GREATEST
            while key in known:
                key = next(drawn) % (2 * GREATEST + 1) - GREATEST
            known.add(key)
            ids.append(key)
            yield f"Put {key} {next(drawn) % 1_000_000}"
        elif next(drawn) % 8 == 0:
            yield f"Get {next(drawn) % 1_000_000}"
        else:
            yield f"Get {ids[next(drawn) % len(ids)]}"


def main():
    count = int(sys.argv[1])
    with open(f"{sys.path[0]}/{HEAD}", encoding="utf-8") as head:
        sys.stdout.write(head.read())
    sys.stdout.writelines(f"client 1 call {call}\n" for call in calls(count))


main()
