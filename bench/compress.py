#!/usr/bin/env python3
"""`build` and `compress` beside mkfs.jffs2, which compresses by default:
python3 bench/compress.py FOLDER [RUNS] [CRATES]

Makes seven folders: 62 files of 1 MiB of text, 62 of 1 MiB of machine code, 16,000 files of 1 to
2,000 bytes of both, and 16 files of 1 MiB each of two letters at random, of four letters, of zeros
that are written out, and of 259 random bytes over and over. Of each it runs `build` on its listing and `compress` on what that made, and
mkfs.jffs2 (mtd-utils) on the folder, in little order and blocks of 64 KiB, one after the other, so
that other work on the machine meets both. It prints the least processor time over the runs of
`build` and `compress` together and of mkfs.jffs2, the ratio, the lengths of both images, their
ratio, and the greatest memory of `compress` over the length of the image that it read. The program
is the one that `rt run` built here, or in CRATES; where CRATES is a file, that program.
"""
import glob
import os
import random
import shutil
import subprocess
import sys

from measuring import program_of, taken

FOLDER = os.path.abspath(sys.argv[1])
RUNS = int(sys.argv[2]) if len(sys.argv) > 2 else 3
PROGRAM = program_of(sys.argv, 3)
MEBIBYTE = 1 << 20
MADE = ("two", "four", "zeros", "period")


def bytes_of(pattern, size):
    """So many bytes of the files that match, one after another, from the first again at the end."""
    paths = [path for path in sorted(glob.glob(pattern, recursive=True)) if os.path.isfile(path)]
    parts, rest = [], size
    while rest:
        for path in paths:
            with open(path, "rb") as file:
                data = file.read(rest)
            parts.append(data)
            rest -= len(data)
            if not rest:
                break
        if rest == size:
            sys.exit(f"no file matches {pattern}")
    return b"".join(parts)


def write(folder, name, data):
    with open(os.path.join(folder, name), "wb") as file:
        file.write(data)


def made_content(kind):
    """A MiB of a kind of content that is made."""
    chance = random.Random(1)
    if kind == "zeros":
        # (a hole would be no data, and a block of zeros is written as any other)
        return bytes(MEBIBYTE)
    if kind == "period":
        return (chance.randbytes(259) * (MEBIBYTE // 259 + 1))[:MEBIBYTE]
    return bytes(chance.choices({"two": b"ab", "four": b"acgt"}[kind], k=MEBIBYTE))


def folder_of(kind):
    """One of the seven folders."""
    made = os.path.join(FOLDER, kind)
    if os.path.isdir(made):
        return made
    os.makedirs(made + ".new")
    if kind in MADE:
        for number in range(16):
            write(made + ".new", f"file{number}", made_content(kind))
        os.rename(made + ".new", made)
        return made
    texts = bytes_of("/usr/share/**/*.[a-z][a-z]*", 64 * MEBIBYTE)
    codes = bytes_of("/usr/bin/*", 64 * MEBIBYTE)
    if kind == "small":
        for number in range(16000):
            data = (texts, codes)[number % 2]
            begin, size = number * 2003 % (60 * MEBIBYTE), 1 + number * 7919 % 2000
            write(made + ".new", f"file{number}", data[begin : begin + size])
    else:
        data = texts if kind == "texts" else codes
        for number in range(62):
            write(made + ".new", f"file{number}", data[number * MEBIBYTE :][:MEBIBYTE])
    os.rename(made + ".new", made)
    return made


def compare(kind):
    folder = folder_of(kind)
    listing, plain, ours, theirs = (f"{FOLDER}/{kind}.{end}" for end in ("txt", "img", "z", "mkfs"))
    with open(listing, "wb") as out:
        words = [PROGRAM, "listing", "--quiet", "--owner", "0", "0", "--time", "0", folder]
        subprocess.run(words, stdout=out, check=True)
    commands = {
        "build": [PROGRAM, "build", "--blocks", "2048", listing, plain],
        "compress": [PROGRAM, "compress", plain, ours],
        "mkfs": ["mkfs.jffs2", "-l", "-e", "64KiB", "-q", "-f", "-r", folder, "-o", theirs],
    }
    times, memory = {name: [] for name in commands}, dict.fromkeys(commands, 0)
    for _ in range(RUNS):
        for name, words in commands.items():
            seconds, kib = taken(words, FOLDER)
            times[name].append(seconds)
            memory[name] = max(memory[name], kib)
    least = {name: min(seconds) for name, seconds in times.items()}
    first, second = least["build"] + least["compress"], least["mkfs"]
    read, length, other = (os.path.getsize(path) for path in (plain, ours, theirs))
    print(
        f"{kind:6}: build {least['build']:6.3f} s, compress {least['compress']:6.3f} s,"
        f" mkfs.jffs2 {second:6.3f} s: {first / second:5.2f} times;"
        f" {read} bytes made {length}, mkfs.jffs2 {other}: {length / other:5.3f};"
        f" memory {memory['compress'] / 1024:6.1f} MiB,"
        f" {memory['compress'] / 1024 - read / MEBIBYTE:5.1f} over the image",
        flush=True,
    )
    for path in (listing, plain, ours, theirs):
        os.remove(path)


def main():
    if not shutil.which("mkfs.jffs2"):
        sys.exit("mkfs.jffs2 is missing: apt-get install mtd-utils")
    os.makedirs(FOLDER, exist_ok=True)
    for kind in ("texts", "codes", "small", *MADE):
        compare(kind)


if __name__ == "__main__":
    main()
