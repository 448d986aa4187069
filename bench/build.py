#!/usr/bin/env python3
"""Compares `build`, `cuts` and `append` with other makers of images: python3 bench/build.py FOLDER [RUNS] [CRATES]

Two trees are made in the folder, each of about 62 MiB: 62 files of 1 MiB, and 16,000 of 3,900 bytes, and for each a listing
that builds it. mkfs.jffs2 is that of mtd-utils; where it is missing it is left out. As `build` does it writes little order,
blocks of 64 KiB with clean markers, pages of 4 KiB or of the size that is told, no compression and no padding behind the
last node. `cat` writes the files'
bytes one after the other, and nothing else. Last an image of 256 MiB, of which the first block is full and all others are
erased: `append` of an empty listing reads all of it, and writes one block. The programs are those that `rt run` built in CRATES (here, where it is not given). Of each
command the least processor time over the runs counts, and the greatest memory; the commands of a round run one after the
other, so that other work on the machine meets them all.
"""
import os
import random
import shutil
import sys

from measuring import measured, report

HERE = os.path.dirname(os.path.abspath(__file__))
FOLDER = os.path.abspath(sys.argv[1])
RUNS = int(sys.argv[2]) if len(sys.argv) > 2 else 5
CRATES = sys.argv[3] if len(sys.argv) > 3 else os.path.join(HERE, "../crates")
PROGRAM = os.path.abspath(os.path.join(CRATES, "jffs2_image/out/jffs2_image"))
BLOCK, BLOCKS = 65536, ["--blocks", "1400"]
GREATEST = 256 << 20


def make(name, count, length):
    """Makes a tree of so many files of this length, and a listing that builds it."""
    random.seed(count)
    os.makedirs(os.path.join(FOLDER, name), exist_ok=True)
    with open(os.path.join(FOLDER, name + ".txt"), "w") as listing:
        for number in range(count):
            file = f"{name}/f{number:05}"
            with open(os.path.join(FOLDER, file), "wb") as out:
                out.write(random.randbytes(length))
            print(f"create 0644 /f{number:05}", f"part /f{number:05} 0 {file}", sep="\n", file=listing)


def commands(name):
    """The commands that make an image of a tree, or go on from one: a name for each, and its words."""
    yield "build", [PROGRAM, "build", *BLOCKS, name + ".txt", name + ".img"]
    yield "cuts", [PROGRAM, "cuts", *BLOCKS, name + ".txt"]
    yield "build --page 16384", [PROGRAM, "build", *BLOCKS, "--page", "16384", name + ".txt", name + ".large"]
    if shutil.which("mkfs.jffs2"):
        made = ["mkfs.jffs2", "-m", "none", "-l", "-e", "64KiB", "-r", name, "-o", name + ".mkfs"]
        yield "mkfs.jffs2", made
        yield "mkfs.jffs2 -s 16384", [*made, "-s", "16384"]
    yield "append of one file", [PROGRAM, "append", *BLOCKS, name + ".img", "one.txt", name + ".more"]
    yield "ls", [PROGRAM, "ls", name + ".img"]
    yield "cp", ["cp", name + ".img", name + ".copy"]
    yield "cat of the files", ["sh", "-c", f"cat {name}/* > {name}.cat"]


def compare(commands, first):
    """Runs the commands in rounds, and prints what each took beside the first."""
    tries = {}
    for _ in range(RUNS):
        for told, words in commands:
            tries.setdefault(told, []).append(measured(words, FOLDER, FOLDER))
    report(tries, first)


def blank(image):
    """The image of 256 MiB: the first block of another one, and erased flash."""
    with open(os.path.join(FOLDER, image), "rb") as source, open(os.path.join(FOLDER, "blank.img"), "wb") as out:
        out.write(source.read(BLOCK))
        for _ in range(GREATEST // BLOCK - 1):
            out.write(b"\xff" * BLOCK)
    print("256 MiB, erased behind the first block")
    compare((
        ("cp", ["cp", "blank.img", "blank.copy"]),
        ("cat", ["sh", "-c", "cat blank.img > /dev/null"]),
        ("append of nothing", [PROGRAM, "append", "--blocks", str(GREATEST // BLOCK), "blank.img", "/dev/null", "blank.more"]),
        ("ls", [PROGRAM, "ls", "blank.img"]),
    ), "cp")


def main():
    os.makedirs(FOLDER, exist_ok=True)
    with open(os.path.join(FOLDER, "one.txt"), "w") as listing:
        print("create 0644 /one", "write /one 0 0a", sep="\n", file=listing)
    for name, count, length in (("large", 62, 1 << 20), ("small", 16000, 3900)):
        make(name, count, length)
        print(f"{count} files of {length} bytes")
        compare(list(commands(name)), "build")
    blank("large.img")
    return 0


sys.exit(main())
