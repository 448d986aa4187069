#!/usr/bin/env python3
"""Compares `listing`, `build` and `extract` with what others do with folders: python3 bench/folders.py FOLDER [RUNS] [PROGRAM]

Two trees are made in the folder, each of about 62 MiB: 62 files of 1 MiB, and 16,000 of 3,900 bytes in folders of 100.
`listing` and `build` make an image of each, and so does mkfs.jffs2 of mtd-utils (without compression, little order, blocks of
64 KiB); where that is missing it is left out. `extract` writes the image into a new folder, and `cp -r` and `cp -a` copy the
folder; the C loop takes the checksum of the image, and in its last form writes its bytes into files of 1 MiB (bench/loop.c, built here by cc
-O2). Of each command the least processor time over the runs counts, and the greatest memory; the commands of a round run one after
the other, so that other work on the machine meets them all.
"""
import os
import shutil
import subprocess
import sys

from measuring import measured, random_tree, report

HERE = os.path.dirname(os.path.abspath(__file__))
FOLDER = os.path.abspath(sys.argv[1])
RUNS = int(sys.argv[2]) if len(sys.argv) > 2 else 5
PROGRAM = os.path.abspath(sys.argv[3] if len(sys.argv) > 3 else os.path.join(HERE, "../crates/jffs2_image/out/jffs2_image"))


def compare(commands, first):
    """Runs the commands in rounds, and prints what each took beside the first. What each made is removed before its next run."""
    tries = {}
    for _ in range(RUNS):
        for told, words, made in commands:
            shutil.rmtree(os.path.join(FOLDER, made), ignore_errors=True)
            tries.setdefault(told, []).append(measured(words, FOLDER, FOLDER))
    report(tries, first)


def main():
    os.makedirs(FOLDER, exist_ok=True)
    loop = os.path.join(FOLDER, "loop")
    subprocess.run(["cc", "-O2", "-o", loop, os.path.join(HERE, "loop.c")], check=True)
    for name, count, length in (("large", 62, 1 << 20), ("small", 16000, 3900)):
        random_tree(os.path.join(FOLDER, name), count, length)
        print(f"{count} files of {length} bytes")
        both = f"{PROGRAM} listing {name} > {name}.txt && {PROGRAM} build --blocks 1400 {name}.txt {name}.img"
        images = [("listing and build", ["sh", "-c", both], "none"), ("listing", [PROGRAM, "listing", name], "none")]
        if shutil.which("mkfs.jffs2"):
            made = ["mkfs.jffs2", "-m", "none", "-l", "-e", "64KiB", "-r", name, "-o", name + ".mkfs"]
            images.insert(0, ("mkfs.jffs2", made, "none"))
        compare(images, images[0][0])
        compare([
            ("cp -r", ["cp", "-r", name, name + ".cp"], name + ".cp"),
            ("cp -a", ["cp", "-a", name, name + ".cpa"], name + ".cpa"),
            ("C loop, in pieces", [loop, "pieces", name + ".img"], "none"),
            ("C loop, whole", [loop, "whole", name + ".img"], "none"),
            ("C loop, written", [loop, "split", name + ".img", name + ".parts"], name + ".parts"),
            ("extract", [PROGRAM, "extract", name + ".img", name + ".new"], name + ".new"),
        ], "cp -r")
    return 0


sys.exit(main())
