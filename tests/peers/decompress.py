#!/usr/bin/env python3
"""Compares what `decompress` makes of compressed images of mkfs.jffs2 with the folder: see
decompress.sh, which starts it."""
import glob
import itertools
import os
import re
import subprocess
import sys
import tempfile

import folders
import tree
import writing
from judging import COUNTS, compare, dumped, ended, run, test
from listing import Parts

HERE = os.path.dirname(os.path.abspath(__file__))
sys.path.append(os.path.dirname(HERE))
import decompress_model as model  # noqa: E402

METHODS = {
    "default": (),
    "zlib": ("-x", "rtime"),
    "rtime": ("-x", "zlib"),
    "lzo": ("-X", "lzo", "-x", "zlib", "-x", "rtime"),
    "all by size": ("-X", "lzo", "-m", "size"),
}
ORDERS = {"little": ("-l", "<"), "big": ("-b", ">")}
BLOCKS = (8, 16, 32, 64, 128, 256)
PAGES = (4096, 8192, 16384, 32768, 65536)
LINE = re.compile(rb"decompressed (\d+) nodes (\d+) bytes (\d+)\n")
PACKED = re.compile(rb"compressed (\d+) nodes (\d+) bytes (\d+)\n")


def make(folder):
    """The folder of tree.py, and files that can be compressed."""
    tree.make(folder)
    texts = os.path.join(folder, b"texts")
    os.mkdir(texts)
    names = sorted(glob.glob(f"{HERE}/../../docs/*.md"))
    text = b"".join(open(name, "rb").read() for name in names)
    with open("/bin/bash", "rb") as file:
        code = file.read()
    for size in (1, 2, 12, 13, 40, 500, 4096, 5000, 70000, 200000):
        tree.write(os.path.join(texts, b"text%d" % size), text[size : 2 * size])
        tree.write(os.path.join(texts, b"code%d" % size), code[len(code) // 4 :][:size])
        runs = (b"a" * 300 + b"b" * 7)[: size % 307] * 40
        tree.write(os.path.join(texts, b"runs%d" % size), runs)
    tree.write(os.path.join(texts, b"lines"), b"".join(b"%d\n" % k for k in range(12000)))


def opened(what, image, order, block):
    """Decompresses an image: the new one, or nothing where it is refused, as the model says."""
    words, out = writing.geometry(order, block), image + ".open"
    if os.path.exists(out):
        os.remove(out)
    with open(image, "rb") as file:
        made, fault = model.decompress(file.read(), block, ORDERS[order][1])
    status, told, errors = run("decompress", *words, image, out)
    if fault:
        wanted = (1, b"", f"jffs2_image: {fault}")
        fine = (status, told, errors.partition("\n")[0]) == wanted and not os.path.exists(out)
        test(f"{what}: decompress", [] if fine else [f"{status} {told} {errors}, wanted {fault}"])
        return None
    line = LINE.fullmatch(told)
    if status or errors or not line:
        test(f"{what}: decompress", [f"status {status}: {told} {errors}"])
        return None
    with open(out, "rb") as file:
        data = file.read()
    seen, faults = dumped(image, block, order)
    counts = (made.changed, seen, len(data))
    faults += [] if tuple(map(int, line.groups())) == counts else [f"{told}, wanted {counts}"]
    test(f"{what}: decompress", faults)
    test(f"{what}: bytes", [] if data == made.image else ["other bytes than those of the model"])
    seen, faults = dumped(out, block, order)
    test(f"{what}: jffs2dump", faults + ([] if seen == made.nodes else [f"{seen} nodes"]))
    return out


def packed(what, plain, order, block):
    """What `compress` makes of an image: jffs2dump finds no fault in it, and decompressed it is that
    image. Answers its length."""
    words, small, back = writing.geometry(order, block), plain + ".small", plain + ".back"
    status, told, errors = run("compress", *words, plain, small)
    line = PACKED.fullmatch(told)
    if status or errors or not line:
        test(f"{what}: compress", [f"status {status}: {told} {errors}"])
        return 0
    length = os.path.getsize(small)
    seen, faults = dumped(small, block, order)
    changed, nodes, size = map(int, line.groups())
    faults += [] if (nodes, size) == (seen, length) and changed else [f"{told}, wanted {seen}"]
    test(f"{what}: compress", faults)
    again = run("decompress", *words, small, back)
    wanted = b"decompressed %d nodes %d bytes %d\n" % (changed, nodes, os.path.getsize(plain))
    with open(plain, "rb") as first, open(back, "rb") as second:
        fine = again == (0, wanted, "") and first.read() == second.read()
    test(f"{what}: compress, decompress", [] if fine else [f"{again}, or other bytes"])
    return length


def read_at_once(what, image, out, words):
    """`ls` and `cat` with --decompress say what they say of the new image."""
    first, second = run("ls", "--decompress", *words, image), run("ls", *words, out)
    test(f"{what}: ls --decompress", [] if first == second and not first[0] else ["another list"])
    for path in ("/texts/lines", "/texts/code200000", "/sizes/sparse"):
        first = run("cat", "--decompress", *words, image, path)
        second = run("cat", *words, out, path)
        test(f"{what}: cat --decompress", [] if first == second and not first[0] else [path])
    status, told, errors = run("ls", *words, image)
    fine = status == 1 and not told and "M4 Compressed at " in errors and "--decompress" in errors
    test(f"{what}: ls", [] if fine else [f"status {status}: {errors}"])


def produced(folder, image, method, order, block, *more):
    """Makes an image of this block size, in KiB."""
    options = (ORDERS[order][0], "-e", f"{block}KiB", *METHODS[method], *more)
    words = ["mkfs.jffs2", "-r", folder, "-o", image, *options]
    subprocess.run(words, check=True, capture_output=True)
    return " ".join(("mkfs.jffs2", *options))


def summed(image, order, block):
    """What sumtool makes of an image."""
    words = ("sumtool", ORDERS[order][0], "-e", f"{block}KiB", "-i", image, "-o", image + ".sums")
    subprocess.run(words, check=True, capture_output=True)
    return image + ".sums"


def each_method(folder, image):
    """Each method alone and together, both orders, six sizes of blocks, as it is and by sumtool."""
    for method, order, block in itertools.product(METHODS, ORDERS, BLOCKS):
        what = produced(folder, image, method, order, block)
        words = writing.geometry(order, block * 1024)
        if out := opened(what, image, order, block * 1024):
            compare(what, words, out, folder)
            read_at_once(what, image, out, words)
            length = packed(what, out, order, block * 1024)
            if method == "default" and length:
                print(f"{what}: {os.path.getsize(image)} bytes, by compress {length}")
        what += ", sumtool"
        if out := opened(what, summed(image, order, block), order, block * 1024):
            got = run("ls", *words, out)
            wanted = tree.expected(folder, tree.Squash())
            test(f"{what}: ls", tree.differences(tree.listed(got[1].decode()), wanted))


def each_page(folder, image):
    """Pages of other sizes, without LZO, with which mkfs.jffs2 crashes then. A node that a block
    does not hold when it is expanded is refused."""
    refused = 0
    for page, method, (order, block) in itertools.product(
        PAGES, ("default", "zlib", "rtime"), (("little", 64), ("big", 128), ("little", 256))
    ):
        what = produced(folder, image, method, order, block, "-s", str(page))
        if out := opened(what, image, order, block * 1024):
            compare(what, writing.geometry(order, block * 1024), out, folder)
        refused += not out
    print(f"pages: {refused} images have nodes that are too long for a block")


def extracted(folder, image, place):
    """`extract` of what `decompress` makes, and with --decompress, is the folder."""
    wanted, lost = folders.facts(folder)
    kinds = (("default", "little", 64), ("lzo", "big", 16), ("rtime", "big", 8))
    for method, order, block in kinds:
        what = produced(folder, image, method, order, block)
        words = writing.geometry(order, block * 1024)
        out = opened(what, image, order, block * 1024)
        for way, more, file in (("then", [], out), ("at once", ["--decompress"], image)):
            new = os.path.join(place, f"{method} {way}")
            folders.extracted(f"{what}, extract {way}", [*words, *more], file, new, wanted, lost)


def extended(folder, image, place):
    """`append` to what `decompress` makes, and with --decompress: the changed folder, one image."""
    changed = writing.copied(folder, b"changed")
    lines = writing.change(changed, Parts(place))
    kinds = itertools.product(("default", "lzo", "rtime"), ORDERS, (8, 64, 128))
    for method, order, block in kinds:
        what, size = produced(folder, image, method, order, block), block * 1024
        out = opened(what, image, order, size)
        if not out:
            continue
        more = writing.extended(f"append to {what}", out, order, size, lines, changed)
        flash = [*writing.geometry(order, size), "--blocks", str(writing.FLASH // size)]
        at_once = image + ".once"
        done = run("append", "--decompress", *flash, image, "lines", at_once, place=place)
        fine = more and done[0] == 0 and open(at_once, "rb").read() == open(more, "rb").read()
        test(f"append --decompress to {what}", [] if fine else [f"{done}"])


def main():
    with tempfile.TemporaryDirectory() as place:
        folder, image = os.path.join(place, "folder").encode(), os.path.join(place, "image")
        os.mkdir(folder)
        make(folder)
        for part in (each_method, each_page):
            part(folder, image)
            print(f"{part.__name__}: {COUNTS[0]} passed, {COUNTS[1]} failed so far", flush=True)
        extracted(folder, image, place)
        extended(folder, image, place)
    return ended()


if __name__ == "__main__":
    sys.exit(main())
