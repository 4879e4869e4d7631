#!/usr/bin/env python3
"""Writes so many procedures, each a program of six steps with names and numbers of its own, the same ones at each run."""

import sys

PROCEDURE = """CREATE PROCEDURE Add{n} PARTITION ON TABLE acct COLUMN id PARAMETER 0 AS PROGRAM (id BIGINT, n BIGINT) BEGIN
  SQL r = SELECT bal FROM acct WHERE id = :id AND (bal + {a}) * 2 > {b} OR NOT bal IN (1, {a}, {b});
  IF ROWS(r) = 0 THEN ABORT 'no account {n}'; END;
  LET b = FIRST(r.bal) + :n * {a} - {b};
  IF :b < 0 THEN ABORT 'below zero'; END;
  SQL UPDATE acct SET bal = :b WHERE id = :id;
  RETURN :b;
END;
"""


def main():
    for number in range(int(sys.argv[1])):
        sys.stdout.write(PROCEDURE.format(n=number, a=number % 97, b=number * 7919 % 1_000_003))


main()
