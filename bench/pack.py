#!/usr/bin/env python3
"""Compares `pack` with mkfs.jffs2 of mtd-utils: python3 bench/pack.py FOLDER [RUNS] [PROGRAM]

Two trees are made in the folder, each of about 62 MiB: 62 files of 1 MiB, and 16,000 of 3,900 bytes in folders of 100.
`pack` makes an image of each, and so do mkfs.jffs2 (without compression, little order, blocks of 64 KiB), which is needed, and
`listing` and `build`, of which the image must be the same. Where cc is there, bench/hold.c makes the calls of the system and the
copies alone, once with the bytes of all files held and once with none. Of each command the least processor time over the runs
counts, and the greatest memory; the commands of a round run one after the other, so that other work on the machine meets them all.

Then `pack --compress` beside mkfs.jffs2 by its default (zlib and rtime), of as many files of text and of machine code: the ratio of
processor time (aims: 0.9 for the large files and 0.5 for the small ones), and of the lengths of the two images (aim: 1.02).
"""
import filecmp
import os
import shutil
import subprocess
import sys

from measuring import measured, mixed_tree, program_of, random_tree, report

HERE = os.path.dirname(os.path.abspath(__file__))
FOLDER = os.path.abspath(sys.argv[1])
RUNS = int(sys.argv[2]) if len(sys.argv) > 2 else 5
PROGRAM = program_of(sys.argv, 3)
TREES = (("large", 62, 1 << 20, 0.9), ("small", 16000, 3900, 0.5))


def compressing():
    """`pack --compress` and mkfs.jffs2 by default, on trees of text and machine code."""
    for name, count, length, aim in TREES:
        name = "mixed_" + name
        mixed_tree(os.path.join(FOLDER, name), count, length)
        print(f"{count} files of {length} bytes, text and machine code, compressed")
        theirs, ours = name + ".mkfs", name + ".pack"
        commands = [
            ("mkfs.jffs2", ["mkfs.jffs2", "-l", "-e", "64KiB", "-r", name, "-o", theirs]),
            ("pack --compress", [PROGRAM, "pack", "--compress", "--quiet", name, ours]),
        ]
        tries = {}
        for _ in range(RUNS):
            for told, words in commands:
                tries.setdefault(told, []).append(measured(words, FOLDER, FOLDER))
        report(tries, "mkfs.jffs2")
        if any(status for runs in tries.values() for _, _, status in runs):
            return 1
        first, second = (os.path.getsize(os.path.join(FOLDER, file)) for file in (ours, theirs))
        ratio = min(tries["pack --compress"])[0] / min(tries["mkfs.jffs2"])[0]
        print(f"  time {ratio:.2f} times (aim {aim}); {first} bytes, mkfs.jffs2 {second}: {first / second:.3f} times (aim 1.02)", flush=True)
    return 0


def main():
    if not shutil.which("mkfs.jffs2"):
        print("mkfs.jffs2 is missing: apt-get install mtd-utils", file=sys.stderr)
        return 77
    os.makedirs(FOLDER, exist_ok=True)
    hold = os.path.join(FOLDER, "hold") if shutil.which("cc") else None
    if hold:
        subprocess.run(["cc", "-O2", "-o", hold, os.path.join(HERE, "hold.c")], check=True)
    for name, count, length, _ in TREES:
        random_tree(os.path.join(FOLDER, name), count, length)
        print(f"{count} files of {length} bytes")
        both = f"{PROGRAM} listing {name} > {name}.txt && {PROGRAM} build --blocks 1400 {name}.txt {name}.img"
        commands = [
            ("mkfs.jffs2", ["mkfs.jffs2", "-m", "none", "-l", "-e", "64KiB", "-r", name, "-o", name + ".mkfs"]),
            ("pack", [PROGRAM, "pack", name, name + ".pack"]),
            ("listing and build", ["sh", "-c", both]),
        ]
        if hold:
            commands += [
                ("the calls alone", [hold, name, name + ".held"]),
                ("and nothing held", [hold, name, name + ".streamed", "stream"]),
            ]
        tries = {}
        for _ in range(RUNS):
            for told, words in commands:
                tries.setdefault(told, []).append(measured(words, FOLDER, FOLDER))
        report(tries, "mkfs.jffs2")
        if not filecmp.cmp(*(os.path.join(FOLDER, name + end) for end in (".pack", ".img")), shallow=False):
            print(f"  the two images of {name} differ")
            return 1
    return compressing()


sys.exit(main())
