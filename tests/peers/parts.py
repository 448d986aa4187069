"""Reads two file systems of mkfs.jffs2 in one dump, each by --offset and --length: see parts.sh, which starts it."""
import itertools
import os
import random
import subprocess
import sys
import tempfile

import folders
import through
import tree
from judging import ended, run, test

ORDERS = {"little": "-l", "big": "-b"}
BLOCKS = (16384, 65536, 131072)
LAYOUT, PAGE, SPARE = "2048+64", 2048, 64
COMMANDS = (
    ("ls", "--decompress"), ("check", "--decompress"), ("damage", "--decompress"), ("map",), ("history",), ("ls", "--json", "--decompress"),
)
MADE = (("decompress",), ("compact",))


def image_of(folder, image, order, block):
    """An image with data by zlib and others, up to the end of its last block."""
    words = ["-r", folder, "-o", image, "-e", str(block), ORDERS[order], "-p", "-n" if block == 131072 else "-v"]
    subprocess.run(["mkfs.jffs2", *words], check=True, capture_output=True)
    with open(image, "rb") as file:
        return file.read()


def folders_in(place, chance):
    """Two folders of unlike files."""
    made = [os.path.join(place, name).encode() for name in ("first", "second")]
    for folder in made:
        os.mkdir(folder)
        through.make(folder)
        for count in range(chance.randrange(4, 9)):
            tree.write(os.path.join(folder, b"own %d" % count), chance.randbytes(chance.randrange(30000)))
    return made


def alike(what, place, words, command, dump, image, *made):
    """A command does of a part of the dump what it does of the image alone, but for the name."""
    answers = []
    for name, more in (dump, words), (image, ()):
        link, out = os.path.join(place, "flash"), [os.path.join(place, new) for new in made]
        os.link(name, link)
        status, told, notes = run(*command, *more, "flash", *made, place=place)
        answers.append((status, told, notes, [open(new, "rb").read() for new in out if os.path.exists(new)]))
        for path in (link, *out):
            if os.path.exists(path):
                os.remove(path)
    test(f"{what}: {' '.join(command)}", [] if answers[0] == answers[1] else [f"{answers[0]!r:.150}, wanted {answers[1]!r:.150}"])


def judge_part(what, place, words, options, folder, dump, image):
    """A part of a dump, by all commands, and extracted."""
    for command in COMMANDS:
        alike(what, place, words, (*command, *options), dump, image)
    alike(what, place, words, ("info",), dump, image)
    alike(what, place, words, ("ls", "--auto"), dump, image)
    for command in MADE:
        alike(what, place, words, (*command, *options), dump, image, "out")
    new = os.path.join(place, "tree")
    status, told, notes = run("extract", "--decompress", "--quiet", *options, *words, dump, new, place=place)
    wanted, _ = folders.facts(folder)
    faults = folders.differences(folders.facts(new.encode())[0], wanted) if os.path.isdir(new) else [f"status {status}: {told} {notes}"]
    test(f"{what}: extract", faults)
    subprocess.run(["rm", "-rf", new], check=True)
    status, told, _ = run("verify", "--quiet", "--owner", "0", "0", *options, *words, dump, folder, place=place)
    test(f"{what}: verify", [] if status == 0 and not told else [f"status {status}: {told[:200]}"])


def with_spare(data, chance):
    """The same as a dump of NAND flash."""
    pages = (data[at : at + PAGE] for at in range(0, len(data), PAGE))
    return b"".join(page + chance.randbytes(SPARE) for page in pages)


def judge_dump(what, place, chance, one, other):
    """Two images in one dump, behind a loader and before other bytes."""
    front, middle, end = (chance.randbytes(chance.randrange(1, 40) * 4096) for _ in range(3))
    at, then = len(front), len(front) + len(one[0]) + len(middle)
    data = front + one[0] + middle + other[0] + end
    for name, made in ("dump", data), ("raw", with_spare(data, chance)):
        tree.write(os.path.join(place, name), made)
    for (image, options, folder, path), start in (one, at), (other, then):
        words = ("--offset", hex(start), "--length", str(len(image)))
        judge_part(f"{what} at {start:#x}", place, words, options, folder, os.path.join(place, "dump"), path)
        raw = (*words, "--oob", LAYOUT)
        alike(f"{what} at {start:#x}, spare bytes", place, raw, ("ls", "--decompress", *options), os.path.join(place, "raw"), path)
    # few foreign bytes between two file systems of one order do not part them
    apart = one[1][1] != other[1][1] or len(middle) >= 16 * 4096
    starts = [(int(line.split()[2], 16), line.split()[6]) for line in run("info", "dump", place=place)[1].splitlines() if line.startswith("region ")]
    wanted = [(at, one[1][1]), (then, other[1][1])] if apart else [(at, one[1][1])]
    test(f"{what}: info", [] if starts == wanted else [f"{starts}, wanted {wanted}"])
    early = run("ls", "--offset", hex(then), "--length", str(len(data)), "dump", place=place)
    test(f"{what}: the dump ends before that", [] if early[0] == 1 and "is shorter than" in early[2] else [f"{early}"])


def main():
    chance = random.Random(7208)
    with tempfile.TemporaryDirectory() as place:
        pair = folders_in(place, chance)
        kinds = list(itertools.product(ORDERS, BLOCKS))
        for count, kind in enumerate(kinds):
            sides = []
            for folder, (order, block), name in zip(pair, (kind, kinds[-1 - count]), ("one", "other")):
                path = os.path.join(place, name)
                options = ("--endian", order, "--block", str(block))
                sides.append((image_of(folder, path, order, block), options, folder, path))
            judge_dump(f"{kind[0]}, blocks of {kind[1]}", place, chance, *sides)
    return ended()


if __name__ == "__main__":
    sys.exit(main())
