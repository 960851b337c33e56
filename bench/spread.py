#!/usr/bin/env python3
"""The tables of docs/PERFORMANCE.md from the logs of several runs of bench/speed.sh: python3 bench/spread.py LOG..

The figures are those of the first run; behind them the least and the greatest ratio of all runs."""
import sys


def sections(path):
    """The rows of each table of a log: a name, a piece where there is one, speeds and ratios."""
    found, rows = [], []
    with open(path) as f:
        for line in f:
            cells = line.rstrip("\n").split("|")
            if len(cells) == 3:
                head, speeds, ratios = cells
                if speeds.split()[0].isdigit():
                    rows.append((head.strip(), [int(n) for n in speeds.split()], [float(n) for n in ratios.split()]))
            elif rows:
                found.append(rows)
                rows = []
    return found + ([rows] if rows else [])


def label(head):
    """`five FILL 65536` as a stream and a piece, of 300 bytes at least or whole; a stream alone in the table of the program."""
    words = head.split()
    if words[-1] == "whole":
        return " ".join(words[:-1]), "whole"
    if not words[-1].isdigit() or int(words[-1]) < 300:
        return head, None
    return " ".join(words[:-1]), format(int(words[-1]), ",")


def spread(values):
    low, high = min(values), max(values)
    return "%.2f" % low if low == high else "%.2f to %.2f" % (low, high)


def main():
    runs = [sections(path) for path in sys.argv[1:]]
    for table in zip(*runs):
        for rows in zip(*table):
            stream, piece = label(rows[0][0])
            assert len({row[0] for row in rows}) == 1
            ratios = zip(*(row[2] for row in rows))
            cells = [stream] + ([piece] if piece else []) + [str(n) for n in rows[0][1]] + [spread(values) for values in ratios]
            print("| " + " | ".join(cells) + " |")
        print()


if __name__ == "__main__":
    main()
