#!/usr/bin/env python3
"""Compares what is shown of compressed images of mkfs.jffs2, mounted through their compression, with the folder and with the model:
see through.sh, which starts it."""
import itertools
import os
import random
import sys
import tempfile

import decompress
import tree
from judging import ended, run, test

sys.path.append(os.path.dirname(os.path.dirname(os.path.abspath(__file__))))
import decompress_model as model  # noqa: E402
import hostile_model  # noqa: E402

BLOCKS, PAGES = (8, 64, 256), (4096, 8192, 16384)


def make(folder):
    """A small folder, of which the model is quick: each kind, contents that can be compressed and such that can't, some of many
    nodes, a further name, and names that are escaped."""
    chance = random.Random(12)
    os.makedirs(os.path.join(folder, b"deep/er/est"))
    words = b" ".join(chance.choices((b"flash", b"node", b"erase", b"block", b"entry", b"log"), k=4000))
    with open("/bin/bash", "rb") as file:
        code = file.read()[300000:]
    contents = {
        b"empty": b"", b"one": b"x", b"twelve": b"a" * 12, b"thirteen": b"a" * 13, b"text": words[:3000], b"page": words[:4096],
        b"more": words[:4097], b"pages": words[:20000], b"code": code[:9000], b"noise": chance.randbytes(5000), b"zeros": bytes(17000),
        b"mixed": chance.randbytes(2500) + words[:6000] + bytes(3000), b"deep/er/est/text": words[5000:7000], b"two words": b"two",
    }
    for name, data in contents.items():
        tree.write(os.path.join(folder, name), data)
    os.link(os.path.join(folder, b"text"), os.path.join(folder, b"deep/again"))
    os.symlink(b"er/est/text", os.path.join(folder, b"deep/way"))
    os.symlink(words[:200].replace(b" ", b"/"), os.path.join(folder, b"long"))
    os.mkfifo(os.path.join(folder, b"fifo"))
    for path, folders, names in os.walk(folder):
        for name in folders + names:
            os.utime(os.path.join(path, name), (1000000000, 1000000000 + len(name)), follow_symlinks=False)


def files_of(nodes):
    """The bytes of each regular file by its path, as the model has them."""
    objects, names = hostile_model.tree(nodes)

    def below(ino, path):
        for name, number in names.get(ino, []):
            here = f"{path}/{hostile_model.escaped(name)}"
            if number in objects and objects[number][2] >> 12 == 8:
                yield here, hostile_model.content(nodes, number, objects[number][5])
            elif number in objects and objects[number][2] >> 12 == 4:
                yield from below(number, here)

    return dict(below(1, ""))


def files_in(folder):
    """The same of a folder."""
    found = {}
    for path, _, names in os.walk(folder):
        for name in names:
            file = os.path.join(path, name)
            if os.path.isfile(file) and not os.path.islink(file):
                shown = "".join("/" + tree.escaped(part) for part in os.path.relpath(file, folder).split(b"/"))
                with open(file, "rb") as source:
                    found[shown] = source.read()
    return found


def judge(what, image, order, block, folder):
    """What is shown of an image through its compression."""
    with open(image, "rb") as file:
        data = file.read()
    words = ["--decompress", "--block", str(block), "--endian", order]
    nodes, fault = model.through(data, block, decompress.ORDERS[order][1])
    if fault:
        status, out, errors = run("check", *words, image)
        fine = status == 3 and out.endswith(f"\nmount refused {fault}\n".encode()) and not errors
        test(f"{what}: {fault}", [] if fine else [f"status {status}: {errors}"])
        return
    status, out, errors = run("ls", *words, image)
    lines = list(hostile_model.listed(nodes, 1, "", *hostile_model.tree(nodes), set()))
    test(f"{what}: ls as the model", [] if (status, out.decode().splitlines(), errors) == (0, lines, "") else [f"status {status}: {errors}, or another list"])
    test(f"{what}: ls as the folder", tree.differences(tree.listed(out.decode()), tree.expected(folder, tree.Squash())))
    status, out, errors = run("check", *words, image)
    fine = status == 0 and out.endswith(b"\nmount ok\n") and not errors
    test(f"{what}: check", [] if fine else [f"status {status}: {out[-100:]} {errors}"])
    shown = files_of(nodes)
    test(f"{what}: the files of the model", [] if shown == files_in(folder) else ["other bytes than those of the folder"])
    for path, wanted in shown.items():
        status, out, errors = run("cat", *words, image, path)
        test(f"{what}: cat {path}", [] if (status, out, errors) == (0, wanted, "") else [f"status {status}, {len(out)} of {len(wanted)} bytes: {errors}"])


def summed(what, image, order, block, folder):
    """An image, and what sumtool makes of it."""
    judge(what, image, order, block * 1024, folder)
    judge(f"{what}, sumtool", decompress.summed(image, order, block), order, block * 1024, folder)


def main():
    with tempfile.TemporaryDirectory() as place:
        folder, image = os.path.join(place, "folder").encode(), os.path.join(place, "image")
        os.mkdir(folder)
        make(folder)
        for method, order, block in itertools.product(decompress.METHODS, decompress.ORDERS, BLOCKS):
            summed(decompress.produced(folder, image, method, order, block), image, order, block, folder)
        # LZO of larger pages makes mkfs.jffs2 crash
        for method, order, page in itertools.product(("default", "rtime"), decompress.ORDERS, PAGES[1:]):
            summed(decompress.produced(folder, image, method, order, 64, "-s", str(page)), image, order, 64, folder)
        # a node that a block does not hold when it is expanded is refused
        judge(decompress.produced(folder, image, "default", "little", 8, "-s", "16384"), image, "little", 8192, folder)
    return ended()


if __name__ == "__main__":
    sys.exit(main())
