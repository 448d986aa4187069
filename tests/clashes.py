#!/usr/bin/env python3
"""Runs `decompress --clashes higher` on random images with nodes that clash, against a model.

Usage: tests/clashes.py [PROGRAM]. Entries and inode nodes of few numbers, versions, names and
contents, compressed or not, with twins and damage, in both orders: what is printed, what stands on
standard error, the status, and each byte of OUT are those of tests/decompress_model.py; what is
made mounts, or says M6, and no node of it is left out again. The last line is 'N passed, M failed'.
"""
import os
import random
import tempfile

import compressed_images as images
import decompress_model as model
from groups import run

COUNT, BLOCK = 400, 8192
METHODS = (None, images.RTIME, images.ZLIB, images.LZO)


def node(chance, make):
    """A node that may clash with others, or be the twin of one."""
    number, version = chance.choice((1, 2, 3)), chance.choice((1, 1, 2))
    if chance.random() < 0.4:
        name = chance.choice((b"a", b"b", b"longer"))
        return make.entry(number, version, chance.choice((0, 2, 3)), name, time=chance.choice((7, 8)))
    content = chance.choice((b"", b"aaaaaaaaaaaaaaaa", b"abcabcabcabc", b"x"))
    method = chance.choice(METHODS) if content else None
    mode = 0o40755 if number == 1 else images.FILE
    if method is None:
        return make.inode(number, version, content, len(content), mode=mode)
    return make.packed(method, number, version, content, mode=mode)


def image_of(chance, order):
    make = images.Maker(order)
    nodes = [node(chance, make) for _ in range(chance.randrange(24))]
    nodes += [chance.choice(nodes) for _ in nodes[:3]]
    chance.shuffle(nodes)
    image = bytearray(make.laid(nodes, BLOCK))
    if image and chance.random() < 0.2:
        image[chance.randrange(len(image))] ^= 1
    return bytes(image)


def is_right(image, order, folder):
    """Whether the program does of an image what the model says."""
    source, out = os.path.join(folder, "image"), os.path.join(folder, "out")
    with open(source, "wb") as file:
        file.write(image)
    if os.path.exists(out):
        os.remove(out)
    options = ["--block", str(BLOCK), "--endian", {"<": "little", ">": "big"}[order]]
    status, told, said = run("decompress", "--clashes", "higher", *options, source, out)
    made, lines = model.apart(image, BLOCK, order)
    if made is None:
        return (status, told) == (1, "") and said.startswith(f"jffs2_image: {lines}\n")
    with open(out, "rb") as file:
        written = file.read()
    spoken = [line for line in said.splitlines() if not line.startswith("jffs2_image: note: ")]
    is_noted = len(spoken) < len(said.splitlines())
    if (status, told, spoken) != (3 if lines or is_noted else 0, model.line_of(made) + "\n", lines):
        return False
    again = run("decompress", "--clashes", "higher", *options, out, source)
    checked = run("check", *options, out)[1].splitlines()
    return (
        written == made.image
        and again == (0, f"decompressed 0 nodes {made.nodes} bytes {len(written)}\n", "")
        and ("mount ok" in checked or checked[-1] == "mount refused M6 RootKind")
    )


def main():
    passed = failed = clashed = 0
    with tempfile.TemporaryDirectory() as folder:
        for seed in range(COUNT):
            chance, order = random.Random(seed), "<>"[seed % 2]
            image = image_of(chance, order)
            clashed += bool(model.apart(image, BLOCK, order)[1])
            if is_right(image, order, folder):
                passed += 1
            else:
                failed += 1
                print(f"FAILED: seed {seed}")
    print(f"{clashed} images with nodes that clash, or refused")
    print(f"{passed} passed, {failed} failed")
    return failed > 0


if __name__ == "__main__":
    raise SystemExit(main())
