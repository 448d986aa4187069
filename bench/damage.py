#!/usr/bin/env python3
"""What `damage` costs beside `check`: python3 bench/damage.py FOLDER [COUNT] [RUNS] [PROGRAM]

Makes images of four kinds, each with COUNT (16,000, where it is not given) and with twice as many:
of files in folders of 100, eight folders deep, where every fourth has lost its only node; of one
file, of whose nodes every second is damaged, and half of these hide nothing; of one file that grows
by each node, of which sixteen are damaged; and of folders that lie in one another in a ring, each
with a file that has lost its only node. Also one of files without damage. Runs `check` and `damage`
on each; of each the least processor time over the runs counts. It prints the times, each also as a
multiple of that of `check`, the memory, and how `damage` grew from COUNT to twice COUNT.
"""
import os
import sys

from measuring import measured, program_of, report

HERE = os.path.dirname(os.path.abspath(__file__))
sys.path.append(os.path.join(HERE, "../tests"))
import compressed_images as images  # noqa: E402

BLOCK, DEEP, A_FOLDER, EVERY = 65536, 8, 100, 4
DATA = b"what a file of a small device has in it, a line or two of text.\n"


def nodes_of(count):
    """A chain of folders, then the folders at its end, each with its files; and of each node
    whether it is damaged."""
    make, number = images.Maker("<"), 1
    for step in range(DEEP - 1):
        parent, number = number, number + 1
        yield make.entry(parent, 1, number, b"deep%d" % step), False
        yield make.inode(number, 1, b"", 0, mode=0o40755), False
    top = number
    for place in range(count):
        if place % A_FOLDER == 0:
            number += 1
            folder = number
            yield make.entry(top, place + 1, folder, b"folder%05d" % place), False
            yield make.inode(folder, 1, b"", 0, mode=0o40755), False
        number += 1
        yield make.entry(folder, place + 1, number, b"file%05d" % place), False
        yield make.inode(number, 1, DATA, len(DATA)), place % EVERY == 0


def sound_of(count):
    """The same, and nothing is damaged."""
    for node, _ in nodes_of(count):
        yield node, False


def one_file(count):
    """One file: sound nodes, then damaged ones of the same ranges, then sound ones of half of them."""
    make, half, size = images.Maker("<"), count // 2, count // 2 * len(DATA)
    yield make.entry(1, 1, 2, b"file"), False
    for place in range(2 * half + half // 2):
        offset = place % half * len(DATA)
        yield make.inode(2, place + 1, DATA, size, offset=offset), half <= place < 2 * half


def log(count):
    """One file that grows by each node. Sixteen of them are damaged."""
    make = images.Maker("<")
    yield make.entry(1, 1, 2, b"file"), False
    for place in range(count):
        offset = place * len(DATA)
        yield make.inode(2, place + 1, DATA, offset + len(DATA), offset=offset), place % (count // 16) == 0


def ring(count):
    """Folders, each in the one before it and the first in the last, with a file in each."""
    make, half = images.Maker("<"), count // 2
    for place in range(half):
        folder, file = 2 + place, 2 + half + place
        yield make.entry(2 + (place - 1) % half, 1, folder, b"folder"), False
        yield make.inode(folder, 1, b"", 0, mode=0o40755), False
        yield make.entry(folder, 2, file, b"file"), False
        yield make.inode(file, 1, DATA, len(DATA)), True


KINDS = {"files": nodes_of, "sound": sound_of, "one file": one_file, "log": log, "ring": ring}


def image_of(kind, count):
    nodes = []
    for node, is_damaged in KINDS[kind](count):
        data = bytearray(node)
        if is_damaged:
            data[70] ^= 1  # in its data
        nodes.append(bytes(data))
    return images.Maker("<").laid(nodes, BLOCK)


def tried(kind, count, folder, runs, program):
    """Runs both commands, prints what they took, and answers the least time of `damage`."""
    name = os.path.join(folder, "image")
    with open(name, "wb") as file:
        file.write(image_of(kind, count))
    words = {what: [program, what, "--block", str(BLOCK), name] for what in ("check", "damage")}
    tries = {what: [] for what in words}
    for _ in range(runs):
        for what, line in words.items():
            tries[what].append(measured(line, folder))
    print(f"{kind}, {count}")
    report(tries, "check")
    return min(tries["damage"])[0]


def main():
    folder = os.path.abspath(sys.argv[1])
    count = int(sys.argv[2]) if len(sys.argv) > 2 else 16000
    runs = int(sys.argv[3]) if len(sys.argv) > 3 else 5
    program = program_of(sys.argv, 4)
    os.makedirs(folder, exist_ok=True)
    for kind in KINDS:
        one, two = (tried(kind, number, folder, runs, program) for number in (count, 2 * count))
        print(f"damage of twice as many: {two / one:.2f} times")


if __name__ == "__main__":
    main()
