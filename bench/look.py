#!/usr/bin/env python3
"""`ls` and `cat` with --decompress beside a C program that inflates no more than they show:
python3 bench/look.py FOLDER [RUNS] [CRATES] [MEBIBYTES ..]

Takes the images of mkfs.jffs2 that bench/decompress.py makes, of folders of 16 and 64 MiB (or of those
that are told). On each it runs `ls --decompress`, `cat --decompress` of a small file, `check --decompress`
of the same image, which decompresses all of it, and bench/look.c, one after the other, so that other work
on the machine meets them all. Both must find as many entries and write the same bytes. It prints the least
processor time of each over the runs as a multiple of that of the C program (aim: 3), and the greatest
memory. Needs cc, zlib1g-dev and mtd-utils. The program is the one that `rt run` built here, or in CRATES;
where CRATES is a file, that program.
"""
import os
import subprocess
import sys

import decompress
from decompress import FOLDER, HERE, PROGRAM, RUNS
from measuring import measured, report

SIZES = [int(word) for word in sys.argv[4:]] or [16, 64]
LEAST, MOST = 1000, 9000


def output_of(words):
    return subprocess.run(words, check=True, capture_output=True).stdout


def small_file(image, reader, lines):
    """The number and the path of a file of few bytes that the C program reads too."""
    for line in lines:
        kind, _, _, _, size, _, ino, path = line.split(" ")[:8]
        if kind == "-" and LEAST <= int(size) <= MOST and "\\" not in path:
            theirs = subprocess.run([reader, image, ino], check=False, capture_output=True)
            if theirs.returncode == 0 and theirs.stdout == output_of([PROGRAM, "cat", "--decompress", image, path]):
                return ino, path
    sys.exit(f"{image}: no small file is read alike")


def compare(image, reader):
    lines = output_of([PROGRAM, "ls", "--decompress", image]).decode().splitlines()
    entries = int(output_of([reader, image]))
    if entries != len(lines) - 1:
        sys.exit(f"{image}: {entries} entries, and {len(lines)} lines")
    ino, path = small_file(image, reader, lines)
    commands = {
        "C, entries": [reader, image],
        "C, one file": [reader, image, ino],
        "ls --decompress": [PROGRAM, "ls", "--decompress", image],
        "cat --decompress": [PROGRAM, "cat", "--decompress", image, path],
        "check --decompress": [PROGRAM, "check", "--decompress", image],
    }
    tries = {name: [] for name in commands}
    for _ in range(RUNS):
        for name, words in commands.items():
            tries[name].append(measured(words, FOLDER))
    print(f"{os.path.basename(image)}, {os.path.getsize(image)} bytes, {entries} entries; {path}")
    report(tries, "C, entries")


def main():
    os.makedirs(FOLDER, exist_ok=True)
    reader = f"{FOLDER}/look"
    subprocess.run(["cc", "-O2", "-o", reader, f"{HERE}/look.c", "-lz"], check=True)
    for mebibytes in SIZES:
        compare(decompress.image_of(mebibytes), reader)


if __name__ == "__main__":
    main()
