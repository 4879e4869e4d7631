#!/usr/bin/env python3
"""Writes SQL of so many MiB: statements of a few kinds with changing names, numbers and texts, the same ones at each run."""

import sys

STATEMENTS = [
    "INSERT INTO orders (id, customer, note) VALUES ({a}, {b}, 'it''s order {a}');",
    "SELECT o.id, o.total FROM orders AS o, lines l WHERE o.id = l.order_id AND l.price >= {b} ORDER BY o.id DESC LIMIT 10;",
    "UPDATE account_{c} SET balance = balance - {b} * 2 WHERE id <> {a} AND owner != 'Zoë';",
    "-- statement {a} follows, it's of no interest",
    "DELETE FROM history WHERE day < {b} OR day > {a}/{c};",
    "CREATE TABLE t_{a} (\n  id BIGINT NOT NULL,\n  name VARCHAR(64),\n  PRIMARY KEY (id)\n);",
    "LET x = FIRST(r.bal) + :n;\tIF :x <= {b} THEN ABORT 'below zero'; END;",
]


def main():
    wanted = int(sys.argv[1]) * 2**20
    written, number = 0, 0
    while written < wanted:
        lines = []
        for _ in range(10_000):
            number += 1
            line = STATEMENTS[number % len(STATEMENTS)]
            lines.append(line.format(a=number, b=number * 7919 % 1_000_003, c=number % 97))
        block = ("\n".join(lines) + "\n").encode()[: wanted - written]
        # The last block is cut behind a whole line.
        if written + len(block) == wanted:
            block = block[: block.rfind(b";\n") + 1].ljust(len(block))
        sys.stdout.buffer.write(block)
        written += len(block)


main()
