#!/usr/bin/env python3
"""Compares `check`, `ls` and `cat` with other readers of the same images: python3 bench/readers.py FOLDER [RUNS] [CRATES]

The images are those of bench/trees.py, jffs2reader and jffs2dump those of mtd-utils, and the other programs those that
`rt run` built in CRATES (here, where it is not given). The C loop is bench/loop.c, built here by cc -O2. Of each command the least processor time over the runs counts, and the greatest
memory; the commands of a round run one after the other, so that other work on the machine meets them all. What
jffs2reader prints is not judged: bench/README.md says what it leaves out.
"""
import os
import shutil
import subprocess
import sys

from measuring import measured, report

HERE = os.path.dirname(os.path.abspath(__file__))
FOLDER = os.path.abspath(sys.argv[1])
RUNS = int(sys.argv[2]) if len(sys.argv) > 2 else 5
CRATES = sys.argv[3] if len(sys.argv) > 3 else os.path.join(HERE, "../crates")
PROGRAM = os.path.join(CRATES, "jffs2_image/out/jffs2_image")
CHECKSUM = os.path.join(CRATES, "bench_crc/out/bench_crc")
TREE, LARGE = os.path.join(FOLDER, "tree.img"), os.path.join(FOLDER, "large.img")
LOOP = os.path.join(FOLDER, "loop")

# What is measured: a name, the command, and in how many of the runs. Once is enough for what takes many seconds.
GROUPS = {
    "report of tree.img": (
        ("C loop, in pieces", [LOOP, "pieces", TREE], RUNS),
        ("check --scan", [PROGRAM, "check", "--scan", TREE], RUNS),
        ("check", [PROGRAM, "check", TREE], RUNS),
        ("jffs2dump -c", ["jffs2dump", "-c", TREE], RUNS),
    ),
    "report of large.img": (
        ("C loop, in pieces", [LOOP, "pieces", LARGE], RUNS),
        ("check --scan", [PROGRAM, "check", "--scan", LARGE], RUNS),
        ("check", [PROGRAM, "check", LARGE], RUNS),
        ("jffs2dump -c", ["jffs2dump", "-c", LARGE], RUNS),
    ),
    "listing of large.img": (
        ("C loop, whole", [LOOP, "whole", LARGE], RUNS),
        ("ls", [PROGRAM, "ls", LARGE], RUNS),
    ),
    "listing of tree.img": (
        ("C loop, whole", [LOOP, "whole", TREE], RUNS),
        ("ls", [PROGRAM, "ls", TREE], RUNS),
        ("bare checksum", [CHECKSUM, TREE], RUNS),
        ("jffs2reader -r -d", ["jffs2reader", "-r", "-d", "/", TREE], 1),
    ),
    "58 MiB of large.img": (
        ("C loop, whole", [LOOP, "whole", LARGE], RUNS),
        ("cat", [PROGRAM, "cat", LARGE, "/usr/lib/large"], RUNS),
        ("bare checksum", [CHECKSUM, LARGE], RUNS),
        ("jffs2reader -f", ["jffs2reader", "-f", "/usr/lib/large", LARGE], RUNS),
        ("cat of coreutils", ["cat", LARGE], RUNS),
    ),
    "4 MiB of large.img": (
        ("cat", [PROGRAM, "cat", LARGE, "/usr/lib/small"], RUNS),
        ("bare checksum", [CHECKSUM, LARGE], RUNS),
        ("jffs2reader -f", ["jffs2reader", "-f", "/usr/lib/small", LARGE], RUNS),
    ),
}


def main():
    if not shutil.which("jffs2reader"):
        print("jffs2reader is missing: apt-get install mtd-utils", file=sys.stderr)
        return 77
    subprocess.run(["cc", "-O2", "-o", LOOP, os.path.join(HERE, "loop.c")], check=True)
    for group, commands in GROUPS.items():
        print(group)
        tries = {name: [] for name, _, _ in commands}
        for round_number in range(RUNS):
            for name, words, runs in commands:
                if round_number < runs:
                    tries[name].append(measured(words, FOLDER))
        report(tries, commands[0][0])
    return 0


sys.exit(main())
