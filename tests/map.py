#!/usr/bin/env python3
"""Runs `map` and `map --svg` on random images and on those of other makers, against a model.

Usage: tests/map.py [PROGRAM]. Entries and inode nodes, compressed or not, with twins, deletions, damage, dead nodes, padding and
extended attributes, in both orders: what is printed is that of tests/map_model.py, and the five numbers of each block sum to its
bytes. The picture is well formed XML, also of names that have `&`, `<` or bytes that are no text, and what it draws fills each
block. Then images that do not mount, of which nothing is printed. The last line is 'N passed, M failed'.
"""
import os
import sys
import xml.etree.ElementTree as xml

import compact
import compact_model
import compressed_images as images
import map_model as model
from groups import BLOCK, ROOT, options_of, run, run_all, verdict, write, write_lines

SVG = "{http://www.w3.org/2000/svg}"


def sums_up(text, size):
    """Whether the numbers of each block sum to its bytes, and its bar has 50 characters."""
    lines = [line.split() for line in text.splitlines()[2:-1]]
    return all(sum(map(int, words[2:7])) == size and len(words[7]) == 50 and len(words) == 8 for words in lines)


def is_drawn(text, size):
    """Whether a picture is XML in which each row is filled, one rectangle behind the other, each with its title."""
    for row in xml.fromstring(text).findall(f"{SVG}svg"):
        end = 0
        for rect in row.findall(f"{SVG}rect"):
            if int(rect.get("x")) != end or not rect.find(f"{SVG}title").text:
                return False
            end += int(rect.get("width"))
        if end != size:
            return False
    return True


def try_image(about, image, order, size=BLOCK):
    """Of an image the text and the picture, or its fault; and whether it mounts."""
    write("image", image)
    words = options_of(order, size)
    status, text, said = run("map", *words, "image")
    drawn, picture, told = run("map", "--svg", *words, "image")
    _, fault = compact_model.nodes_through(image, size, order)
    if fault:
        verdict(f"{about}: it is refused", (status, text) == (1, "") and (drawn, picture, told) == (1, "", said))
        return 0
    if status == 1 and said:
        verdict(f"{about}: both are refused", (text, drawn, picture, told) == ("", 1, "", said))
        return 0
    kept = model.kept_of(image, size, order)
    verdict(f"{about}: the text", text == model.text_of(image, size, order, kept) and sums_up(text, size))
    verdict(f"{about}: the picture", picture == model.picture_of(image, size, order, kept) and is_drawn(picture, size))
    verdict(f"{about}: the status", drawn == status and told == said)
    return 1


def random_images():
    count = sum(try_image(f"random image {seed}", *compact.random_image(seed)) for seed in range(150))
    verdict(f"most random images are mapped: {count}", count > 100)


def by_others():
    """Nodes of few numbers, compressed in each method, some of them wrong; torn ends; and images of mkfs.jffs2."""
    for made in images.of_others(30, 20, BLOCK):
        try_image(*made)


def by_hand():
    """Names that XML would read otherwise, nodes of other types, an end that is cut off, both orders in one image."""
    for order, other in ("<>", "><"):
        make = images.Maker(order)
        root = make.inode(1, 1, b"", 0, mode=images.DIRECTORY)
        nodes = [root, make.entry(1, 1, 2, b"a<&>\"'/\\\xff b"), make.inode(2, 1, b"hello", 5), make.entry(1, 2, 0, b"gone")]
        nodes += [make.header(0x2004, 12), make.header(0xE008, 12), make.header(0x20F7, 12), make.entry(1, 3, 7, b"x" * 254)]
        image = make.laid(nodes, BLOCK)
        try_image(f"names, {order}", image, order)
        try_image(f"a cut image, {order}", image[:-5], order)
        foreign = images.Maker(other).laid([images.Maker(other).inode(1, 1, b"", 0, mode=images.DIRECTORY)], 4096)
        own = make.laid([root], 4096)
        try_image(f"both orders, {order}", own + b"\xff" * (-len(own) % 4096) + foreign, order, 4096)


def documented():
    """The pictures of the guide: of an image that was written for long, and of what `compact` makes of it."""
    words = options_of("<", BLOCK)
    writes = [f"write /state 0 3{number}0a" for number in range(1, 10)]
    write_lines("uses.txt", ["create 0644 /state", *writes, "remove /log", "remove /etc/log"])
    run("decompress", *words, os.path.join(ROOT, "tests", "data", "default.img"), "old.img")
    run("append", *words, "--blocks", "64", "old.img", "uses.txt", "used.img")
    run("compact", *words, "used.img", "new.img")
    for name in ("used", "new"):
        drawn = run("map", "--svg", *words, f"{name}.img")[1]
        verdict(f"the picture of {name}.img", drawn.encode() == compact.read(os.path.join(ROOT, "docs", f"map-{name}.svg")))


if __name__ == "__main__":
    sys.exit(run_all((by_hand, by_others, random_images, documented)))
