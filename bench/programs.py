#!/usr/bin/env python3
"""Each program of bin/ end to end on a file, through its wrapper, beside reading the same file and doing nothing with it.

Run from the repository's root: python3 bench/programs.py
Best of five, in turns. The files have just been written: the system holds them in memory. They stand below target/bench/ and are removed."""
import os
import subprocess
import sys
import time

sys.dont_write_bytecode = True
sys.path.insert(0, "tests")
from program_samples import book

FOLDER = os.path.join("target", "bench", "programs")
ROUNDS, PIECE = 5, 65536
YEAR, CYCLES = 2003, 255
DAYS = [(1 + k, 0, 0, 0, 0) for k in range(CYCLES)]
# A scratched reel and its frames so many times over: 248 MB, and 101 MB.
REELS, FRAMES = 70, 280


def path(name):
    return os.path.join(FOLDER, name)


def write(name, data, times=1):
    with open(path(name), "wb") as f:
        for _ in range(times):
            f.write(data)


def read(name):
    with open(path(name), "rb") as f:
        return f.read()


def make():
    os.makedirs(FOLDER, exist_ok=True)
    subprocess.run([sys.executable, "tests/scratched_reel.py", FOLDER], check=True)
    write("reels", read("reel"), REELS)
    write("many", read("frames"), FRAMES)
    whole = book(YEAR, DAYS)
    write("book", whole)
    write("bodies", whole[4 + 12 * CYCLES:])


def run(words, stdin):
    with open(path(stdin) if stdin else os.devnull, "rb") as given:
        subprocess.run(words, stdin=given, stdout=subprocess.DEVNULL, stderr=subprocess.DEVNULL)


def read_alone(names):
    for name in names:
        with open(path(name), "rb", buffering=0) as f:
            while f.read(PIECE):
                pass


def seconds(work, *given):
    began = time.perf_counter()
    work(*given)
    return time.perf_counter() - began


def row(name, words, stdin, names):
    """The command, what it reads as its standard input, and the files that it reads in all."""
    times = [(seconds(run, ["bin/" + name] + words, stdin), seconds(read_alone, names)) for _ in range(ROUNDS)]
    program, plain = (min(column) for column in zip(*times))
    size = sum(os.path.getsize(path(n)) for n in names)
    print("| `%s` | %.1f MB | %.0f | %.0f | %.2f |" % (name, size / 1e6, size / program / 1e6, size / plain / 1e6, plain / program))


def main():
    make()
    year = ["--year", str(YEAR)]
    print("| Program | File | MB/s | Reading alone | Ratio |\n|---|---|---|---|---|")
    row("pcd-tally", [path("reels")], None, ["reels"])
    row("pcd-frames", [path("reels")], None, ["reels"])
    row("pcd-map", [path("reels")], None, ["reels"])
    row("pcd-items", year, "many", ["many"])
    row("pcd-orbit", year, "many", ["many"])
    row("pcd-book", year, "bodies", ["bodies"])
    row("pcd-book-check", [path("book")], None, ["book"])
    row("pcd-book-compare", [path("book"), path("book")], None, ["book", "book"])
    row("pcd-find", [path("book"), "1"], None, ["book"])
    for name in os.listdir(FOLDER):
        os.remove(path(name))


if __name__ == "__main__":
    main()
