#!/usr/bin/env python3
"""Runs `info` on dumps of a whole flash, which hold several file systems.

Usage: tests/regions.py [PROGRAM]. Images are made by the program itself, in both byte orders and with blocks of several sizes, and put into
dumps behind a boot loader and between other bytes. `info` prints where each lies, and `ls --auto` with these numbers lists what it lists of
the image alone. The lines are compared with those of info_model.py too, which finds regions by a pattern, also of dumps of random units:
nodes of either order, erased and foreign bytes. The last line is 'N passed, M failed'.
"""
import itertools
import random
import sys

import info_model
from groups import ORDERS, options_of, read, run, run_all, verdict, write, write_lines

UNIT = info_model.UNIT
SIZES = 8192, 65536, 131072
LISTING = "mkdir 0755 /etc", "create 0644 /etc/name", "write /etc/name 0 68656c6c6f0a", "create 0600 /big", f"write /big 0 {'a5' * 3000}"


def image_of(order, size, blocks):
    """An image of a small tree, filled up to so many blocks."""
    write_lines("listing", LISTING)
    status, _, err = run("build", *options_of(order, size), "--blocks", str(blocks), "--pad", "listing", "image")
    verdict(f"build {order} {size}", status == 0, None) if status == 0 else print(err)
    return read("image")


def noise(units, chance):
    """Bytes of something else: no unit of it is erased, and none has a node."""
    return chance.randbytes(units * UNIT)


def region_lines(dump):
    write("dump", dump)
    status, out, _ = run("info", "dump")
    return status, [line for line in out.splitlines() if line.startswith(("region", "more"))], out


def is_modelled(about, dump):
    """Whether all lines are those of the model."""
    _, _, out = region_lines(dump)
    verdict(f"{about}: the model", out.splitlines() == info_model.lines(dump))


def two_file_systems():
    """Two of them, in each pair of orders and sizes, behind a boot loader and with something else between them."""
    chance = random.Random(72)
    for (first, second), (one, two) in itertools.product(itertools.product(ORDERS, repeat=2), itertools.permutations(SIZES, 2)):
        images = image_of(first, one, 4), image_of(second, two, 6)
        before, between = 16 * chance.randrange(1, 9), 16 * chance.randrange(1, 9)
        parts = noise(before, chance), images[0], noise(between, chance), images[1], noise(3, chance)
        dump = b"".join(parts)
        about = f"{first}{one} {second}{two}"
        _, lines, _ = region_lines(dump)
        verdict(f"{about}: two regions", len(lines) == 2)
        places = len(parts[0]), len(dump) - len(parts[4]) - len(images[1])
        for line, place, order, image in zip(lines, places, (first, second), images):
            words = line.split()
            verdict(f"{about}: {line}", int(words[2], 0) == place and words[6] == ORDERS[order])
            length = int(words[4], 0) - int(words[2], 0)
            write("image", image)
            alone = run("ls", "--auto", "image")[:2]
            verdict(f"{about}: ls", run("ls", "--auto", "--offset", words[2], "--length", str(length), "dump")[:2] == alone)
        is_modelled(about, dump)


def plain_images():
    """Of an image alone no region is printed, with dirt in it neither."""
    chance = random.Random(3)
    for order, size in itertools.product(ORDERS, SIZES):
        image = image_of(order, size, 5)
        for about, file in ("alone", image), ("dirt", image[:3 * size] + noise(1, chance) + image[3 * size + UNIT:]), ("cut", image[:size + 9]):
            verdict(f"{about} {order}{size}", region_lines(file)[1] == [])
            is_modelled(f"{about} {order}{size}", file)
    for about, file in ("nothing", b""), ("erased", b"\xff" * 9000), ("zeros", bytes(9000)), ("short", b"\x85\x19"):
        verdict(about, region_lines(file)[1] == [])


def marker_of(order):
    image = image_of(order, 8192, 1)
    return image[:12]


def random_units():
    """Units of nodes, erased and foreign ones, in any order; many of the dumps have more than sixteen regions."""
    chance = random.Random(9)
    marker = {order: marker_of(order) for order in ORDERS}
    for case in range(120):
        kinds = chance.choices("<>EX", chance.choice([(1, 1, 1, 1), (4, 4, 3, 60), (1, 0, 2, 25), (2, 1, 0, 0)]), k=chance.randrange(0, 160))
        units = [marker[kind] + b"\xff" * (UNIT - 12) if kind in ORDERS else {"E": b"\xff" * UNIT}.get(kind) or chance.randbytes(UNIT)
                 for kind in kinds]
        is_modelled(f"units {case}", b"".join(units) + chance.choice([b"", b"\xff" * 7, b"abc", marker["<"]]))


def main():
    sys.exit(run_all([two_file_systems, plain_images, random_units]))


if __name__ == "__main__":
    main()
