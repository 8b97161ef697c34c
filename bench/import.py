#!/usr/bin/env python3
"""Times imports through the built program: bench/import.py [ROWS [TIMES]]

Each import goes to a run of its own, as a message of numbered requests. The last is of the longest line that is read,
65,536 bytes, with rows that come again and again.
"""
import sys

from program import ask, message, start


def rows(count):
    return [[1, place // 16, f"10.{place // 250}.1.{place % 250}", 6200, f"disk{place}", "100.00"] for place in range(count)]


def longest():
    """Rows of 256 devices, again and again, as many as a line holds."""
    found = rows(256)
    while len(message(2, "import", rows=[*found, found[len(found) % 256]])) <= 65536 + 1:
        found.append(found[len(found) % 256])
    return found


def timed(rows_of):
    """Imports rows twice into a new ring, and prints how long each import took."""
    with start() as program:
        ask(program, message(1, "create", power=14, replicas=5, min_hours=24))
        line = message(2, "import", rows=rows_of)
        answer, added = ask(program, line)
        _, reweighed = ask(program, message(3, "import", rows=rows_of))
        program.stdin.close()
    print(f"{len(rows_of):>6} {len(line):>7} {1000 * added:>8.2f} {1000 * reweighed:>11.2f}  {answer}")


def main():
    count = int(sys.argv[1]) if len(sys.argv) > 1 else 256
    times = int(sys.argv[2]) if len(sys.argv) > 2 else 5
    print(f"{'rows':>6} {'bytes':>7} {'add ms':>8} {'reweigh ms':>11}  answer")
    for _ in range(times):
        timed(rows(count))
    timed(longest())


if __name__ == "__main__":
    main()
