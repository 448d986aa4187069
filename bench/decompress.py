#!/usr/bin/env python3
"""`decompress` beside a C program that inflates the same nodes:
python3 bench/decompress.py FOLDER [RUNS] [CRATES] [MEBIBYTES ..]

Makes folders of 16, 64 and 128 MiB (or of those that are told) of the files of this machine's /usr,
and of each the default image of mkfs.jffs2 (mtd-utils), little order, blocks of 64 KiB. It runs
`decompress` and bench/decompress.c on each image, one after the other, so that other work on the
machine meets both. Both must print the same line and write the same bytes. It prints the least
processor time of each over the runs, the ratio, and the greatest memory over the image's length.
Images that stand in FOLDER already are used again. Needs cc, zlib1g-dev and mtd-utils. The program
is the one that `rt run` built here, or in CRATES; where CRATES is a file, that program.
"""
import filecmp
import os
import shutil
import subprocess
import sys

from measuring import program_of, taken

HERE = os.path.dirname(os.path.abspath(__file__))
FOLDER = os.path.abspath(sys.argv[1])
RUNS = int(sys.argv[2]) if len(sys.argv) > 2 else 7
PROGRAM = program_of(sys.argv, 3)
SIZES = [int(word) for word in sys.argv[4:]] or [16, 64, 128]
LARGEST_FILE = 2 << 20


def usual_files():
    """Files of /usr, folder by folder in order of their names."""
    for top, folders, names in os.walk("/usr"):
        folders.sort()
        for name in sorted(names):
            path = os.path.join(top, name)
            if os.path.isfile(path) and not os.path.islink(path):
                yield path


def folder_of(size):
    """A folder of so many bytes: each seventh file of /usr, those above 2 MiB cut."""
    made, rest = os.path.join(FOLDER, "tree"), size
    shutil.rmtree(made, ignore_errors=True)
    for number, path in enumerate(usual_files()):
        if number % 7:
            continue
        with open(path, "rb") as source:
            data = source.read(min(LARGEST_FILE, rest))
        to = made + os.path.dirname(path)
        os.makedirs(to, exist_ok=True)
        with open(os.path.join(to, os.path.basename(path)), "wb") as out:
            out.write(data)
        rest -= len(data)
        if not rest:
            return made
    sys.exit(f"/usr has too few files: {rest} bytes are missing")


def image_of(mebibytes):
    image = os.path.join(FOLDER, f"default{mebibytes}.img")
    if not os.path.exists(image):
        made = folder_of(mebibytes << 20)
        words = ["mkfs.jffs2", "-l", "-e", "64KiB", "-r", made, "-o", image + ".new"]
        subprocess.run(words, check=True)
        os.rename(image + ".new", image)
        shutil.rmtree(made)
    return image


def compare(mebibytes):
    """Runs both, and prints what they took."""
    image, ours, theirs = image_of(mebibytes), f"{FOLDER}/ours.img", f"{FOLDER}/theirs.img"
    commands = ([PROGRAM, "decompress", image, ours], [f"{FOLDER}/decompress", image, theirs])
    lines, times, memory = set(), ([], []), [0, 0]
    for _ in range(RUNS):
        for place, words in enumerate(commands):
            seconds, kib = taken(words, FOLDER)
            times[place].append(seconds)
            memory[place] = max(memory[place], kib)
            with open(f"{FOLDER}/out", "rb") as out:
                lines.add(out.read())
    if len(lines) != 1 or not filecmp.cmp(ours, theirs, shallow=False):
        sys.exit(f"{mebibytes} MiB: the two differ: {lines}")
    length, made = os.path.getsize(image), os.path.getsize(ours)
    first, second = min(times[0]), min(times[1])
    over = memory[0] / 1024 - length / (1 << 20)
    sizes = [count / (1 << 20) for count in (length, made)]
    print(
        f"{mebibytes:4} MiB: image {sizes[0]:6.1f} MiB, written {sizes[1]:6.1f} MiB;"
        f" ours {first:6.3f} s, C {second:6.3f} s: {first / second:5.2f} times;"
        f" memory {memory[0] / 1024:6.1f} MiB, {over:5.1f} over the image,"
        f" C {memory[1] / 1024:6.1f}",
        flush=True,
    )
    print("          ", lines.pop().decode().strip())
    for name in (ours, theirs):
        os.remove(name)


def main():
    os.makedirs(FOLDER, exist_ok=True)
    words = ["cc", "-O2", "-o", f"{FOLDER}/decompress", f"{HERE}/decompress.c", "-lz"]
    subprocess.run(words, check=True)
    for mebibytes in SIZES:
        compare(mebibytes)


if __name__ == "__main__":
    main()
