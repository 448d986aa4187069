#!/usr/bin/env python3
"""Compression beside zlib: python3 bench/packing.py FOLDER [RUNS] [CRATES]

Compresses pieces of 4 KiB by `bench_deflate` and by zlib at level 6 (bench/deflate.c), one after the other, so that other work on
the machine meets both. The pieces are of text, machine code, random bytes, two and four letters at random, zeros, and 259 random
bytes over and over. It prints the least processor time of each over the runs for one piece, the ratio, and the bytes that each
made. Needs cc and zlib1g-dev. The program is the one that `rt run` built here, or in CRATES.
"""
import os
import random
import subprocess
import sys

HERE = os.path.dirname(os.path.abspath(__file__))
from compression import FOLDER, PIECE, PIECES, RUNS, CRATES  # noqa: E402
from measuring import documents, machine_code, taken  # noqa: E402

ROUNDS = 40


def compare(name, content):
    """Runs both on a file of these bytes, and prints what a piece takes, the ratio, and what came out."""
    file = f"{FOLDER}/{name.replace(' ', '_')}.raw"
    content = content[: PIECE * PIECES]
    with open(file, "wb") as out:
        out.write(content)
    words = [str(PIECE), str(ROUNDS)]
    commands = (
        [f"{CRATES}/bench_deflate/out/bench_deflate", file, *words, f"{FOLDER}/streams"],
        [f"{FOLDER}/deflate", file, *words, "6"],
    )
    told, times = [None, None], ([], [])
    for _ in range(RUNS):
        for which, command in enumerate(commands):
            times[which].append(taken(command, FOLDER)[0])
            with open(f"{FOLDER}/out", "rb") as out:
                told[which] = int(out.read())
    ours, theirs = (min(tries) / ROUNDS / (len(content) // PIECE) * 1e6 for tries in times)
    print(f"{name:14} ours {ours:7.1f} us {told[0]:8} bytes  zlib 6 {theirs:7.1f} us {told[1]:8} bytes {ours / theirs:6.2f} times", flush=True)


def contents():
    """Each kind of content by its name."""
    chance = random.Random(1)
    size = PIECE * PIECES
    yield "text", documents()
    yield "machine code", machine_code()
    yield "random bytes", chance.randbytes(size)
    yield "two letters", bytes(chance.choices(b"ab", k=size))
    yield "four letters", bytes(chance.choices(b"acgt", k=size))
    yield "zeros", bytes(size)
    yield "period of 259", (chance.randbytes(259) * PIECES * 16)[:size]


def main():
    os.makedirs(FOLDER, exist_ok=True)
    subprocess.run(["cc", "-O2", "-o", f"{FOLDER}/deflate", f"{HERE}/deflate.c", "-lz"], check=True)
    for name, content in contents():
        compare(name, content)


if __name__ == "__main__":
    main()
