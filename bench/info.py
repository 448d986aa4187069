#!/usr/bin/env python3
"""What `info` and dirt cost: python3 bench/info.py FOLDER [RUNS] [PROGRAM]

Reads the images data.img and entries.img of bench/images.py, and makes dirt.img, random bytes, as
long. The C loop is bench/loop.c, built here by cc -O2. `info` is a multiple of the loop that loads
the file whole, as it does itself; `check --scan` in the other byte order, and of the random bytes,
is a multiple of `check --scan` in the right order. Of each command the least processor time over
the runs counts, and the greatest memory; the commands of a round run one after the other.
"""
import os
import random
import subprocess
import sys

from measuring import measured, program_of, report

HERE = os.path.dirname(os.path.abspath(__file__))


def main():
    folder, runs = os.path.abspath(sys.argv[1]), int(sys.argv[2]) if len(sys.argv) > 2 else 5
    program, loop = program_of(sys.argv, 3), f"{folder}/loop"
    subprocess.run(["cc", "-O2", "-o", loop, f"{HERE}/loop.c"], check=True)
    with open(f"{folder}/dirt.img", "wb") as out:
        out.write(random.Random(3).randbytes(os.path.getsize(f"{folder}/data.img")))
    for name in ("data.img", "entries.img"):
        image = f"{folder}/{name}"
        groups = (
            (("C loop, whole", [loop, "whole", image]), ("C loop, in pieces", [loop, "pieces", image]), ("info", [program, "info", image])),
            (
                ("check --scan", [program, "check", "--scan", image]),
                ("in the other order", [program, "check", "--scan", "--endian", "big", image]),
                ("of random bytes", [program, "check", "--scan", f"{folder}/dirt.img"]),
                ("C loop, in pieces", [loop, "pieces", image]),
            ),
        )
        for commands in groups:
            print(name)
            tries = {word: [] for word, _ in commands}
            for _ in range(runs):
                for word, words in commands:
                    tries[word].append(measured(words, folder))
            report(tries, commands[0][0])


main()
