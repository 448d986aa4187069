#!/usr/bin/env python3
"""`update` with one small file beside `check --decompress` of the same image:
python3 bench/update.py FOLDER [RUNS] [CRATES] [MEBIBYTES ..]

Takes the images of mkfs.jffs2 that bench/decompress.py makes, of folders of 16 and 64 MiB (or of those
that are told), each with four blank blocks behind it. It runs `update` of a file of 4,400 bytes,
`update --tail` of it, and `check --decompress` and `map` of the image, one after the other. It prints
the least processor time of each over the runs as a multiple of that of the check (aim for `update`:
1.2), and the greatest memory. Needs mtd-utils. The program is the one that `rt run` built here, or in
CRATES; where CRATES is a file, that program.
"""
import os
import random
import sys

import decompress
from decompress import FOLDER, PROGRAM, RUNS
from measuring import measured, report

SIZES = [int(word) for word in sys.argv[4:]] or [16, 64]
BLOCK, BLANK = 65536, 4


def device_of(name):
    """The image of a device that has blank blocks too, of one of mkfs.jffs2."""
    device = name.replace("default", "device")
    if not os.path.exists(device):
        with open(name, "rb") as file:
            image = file.read()
        with open(device, "wb") as file:
            file.write(image + b"\xff" * (-len(image) % BLOCK + BLANK * BLOCK))
    return device


def main():
    os.makedirs(FOLDER, exist_ok=True)
    listing, out = f"{FOLDER}/listing", f"{FOLDER}/updated.img"
    with open(listing, "w", encoding="utf-8") as file:
        file.write(f"create 0644 /one-more\nwrite /one-more 0 {random.Random(1).randbytes(4400).hex()}\n")
    for mebibytes in SIZES:
        image = device_of(decompress.image_of(mebibytes))
        commands = {
            "check --decompress": ["check", "--decompress", image],
            "update": ["update", image, listing, out],
            "update --tail": ["update", "--tail", image, listing, out],
            "map": ["map", image],
        }
        tries = {name: [] for name in commands}
        for _ in range(RUNS):
            for name, words in commands.items():
                tries[name].append(measured([PROGRAM, *words], FOLDER))
        print(f"{mebibytes} MiB, an image of {os.path.getsize(image)} bytes")
        report(tries, "check --decompress")
        os.remove(out)


if __name__ == "__main__":
    main()
