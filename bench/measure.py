#!/usr/bin/env python3
"""Runs a program several times on one input, and prints its least time in ms and its greatest memory in MB."""

import subprocess
import sys
import tempfile
import time

RUNS = 10


def once(words, source, sink):
    with open(source, "rb") as input, open(sink, "wb") as output:
        began = time.perf_counter()
        subprocess.run(words, stdin=input, stdout=output, check=True)
        return time.perf_counter() - began


def peak_memory(words, source, sink):
    """The greatest resident set, in KiB. `time` starts the program, since a child of Python counts Python's pages."""
    with tempfile.NamedTemporaryFile("r") as told:
        once(["/usr/bin/time", "-f", "%M", "-o", told.name, *words], source, sink)
        return int(told.read())


def main():
    source, sink, *words = sys.argv[1:]
    least = min(once(words, source, sink) for _ in range(RUNS))
    print(f"{least * 1000:.1f} ms, {peak_memory(words, source, sink) / 1024:.1f} MB")


main()
