#!/usr/bin/env python3
"""Compares what is shown with --auto of images of mkfs.jffs2 with the folder, and what is said of files that are no image: see auto.sh,
which starts it."""
import collections
import gzip
import itertools
import lzma
import os
import random
import re
import shutil
import struct
import sys
import tempfile

import decompress
import folders
import info
import through
import tree
from judging import run, run_groups, test

BLOCKS = (8, 16, 32, 64, 128)
PAGES = (8192, 16384)
CATS = ("/text", "/pages", "/mixed", "/zeros", "/deep/large")
DUMP = 4 << 20
TAKEN = re.compile(r"jffs2_image: note: (little|big)-endian, blocks of (\d+)\n")
NOTHING = "jffs2_image: I1 NoNodes\njffs2_image: note: no node is found in either byte order, see info"
sizes = collections.Counter()


def make(folder):
    """The folder of through.py, with enough noise that its images have several blocks of each size."""
    os.mkdir(folder)
    through.make(folder)
    tree.write(os.path.join(folder, b"deep/large"), random.Random(14).randbytes(400000))
    os.utime(os.path.join(folder, b"deep/large"), (1100000000, 1100000000))
    os.utime(os.path.join(folder, b"deep"), (1100000000, 1100000000))


# ---- images, with no other option

def found(command, image, *more):
    """What a command with --auto does; apart from that, what it says that it took."""
    status, out, errors = run(command, "--auto", *more[:-1], image, *more[-1:])
    note = TAKEN.match(errors + "\n")
    return status, out, errors[note.end() :] if note else errors, note and (note[1], int(note[2]))


def is_taken(what, image, order, block, taken):
    """The order is the image's, and the size the greatest that `info` prints, or the greatest of all where it prints none: never
    a smaller one than the image's."""
    line = run("info", image)[1].decode().splitlines()[2]
    sizes_shown = info.RANGE.fullmatch(line)
    wanted = (order, int(sizes_shown[2]) if sizes_shown else 4194304)
    sizes["the image's" if wanted[1] == block else "unknown" if not sizes_shown else "a greater one"] += 1
    test(f"{what}: taken", [] if taken == wanted and taken[1] >= block else [f"{taken}, wanted {wanted} of {block}"])


def is_shown(what, image, folder, files):
    """`ls`, `check` and `cat` show the folder."""
    status, out, errors, taken = found("ls", image)
    faults = tree.differences(tree.listed(out.decode()), tree.expected(folder, tree.Squash()))
    test(f"{what}: ls", faults if (status, errors) == (0, "") else [f"status {status}: {errors}"])
    status, out, errors, again = found("check", image)
    fine = (status, errors, again) == (0, "", taken) and out.endswith(b"\nmount ok\n")
    test(f"{what}: check", [] if fine else [f"status {status}, {again}: {out[-100:]} {errors}"])
    for path in CATS:
        wanted = files[path]
        status, out, errors, again = found("cat", image, path)
        fine = (status, errors, again) == (0, "", taken) and out == wanted
        test(f"{what}: cat {path}", [] if fine else [f"status {status}, {len(out)} of {len(wanted)} bytes: {errors}"])
    return taken


def is_extracted(what, image, folder, taken):
    """`extract` makes the folder anew, but for its FIFO."""
    wanted, lost = folders.facts(folder)
    made = image + ".extracted"
    status, out, errors, again = found("extract", image, "--owners", made)
    test(f"{what}: extract, told", folders.told(status, errors, lost) + ([] if not out and again == taken else [f"{out!r} {again}"]))
    test(f"{what}: extract", folders.differences(folders.facts(made.encode())[0], wanted))
    shutil.rmtree(made, ignore_errors=True)


def judge(what, image, order, block, folder, files):
    """All that is shown of an image."""
    taken = is_shown(what, image, folder, files)
    is_taken(what, image, order, block * 1024, taken)
    is_extracted(what, image, folder, taken)


def kinds():
    """Of each image how it is compressed, its order, its blocks in KiB, the other words, whether it goes through sumtool, and whether
    it is filled up to a whole flash."""
    for order, method, block in itertools.product(("big", "little"), decompress.METHODS, BLOCKS):
        yield method, order, block, (), False, False
    for order, block in itertools.product(("big", "little"), BLOCKS):
        yield "default", order, block, (), True, False
    for order in ("big", "little"):
        # LZO of larger pages makes mkfs.jffs2 crash
        yield from (("default", order, 64, ("-s", str(page)), False, False) for page in PAGES)
        yield from (("default", order, 64, words, False, False) for words in (("-n",), ("-p",), ("-m", "none"), ("-n", "-p")))
        yield "default", order, 128, (), False, True


def images(folder, image):
    """Each image shows the folder, though nothing says how it was made."""
    files, count = through.files_in(folder), 0
    for method, order, block, words, is_summed, is_dump in kinds():
        what = decompress.produced(folder, image, method, order, block, *words)
        path = decompress.summed(image, order, block) if is_summed else image
        what += ", sumtool" if is_summed else ", filled" if is_dump else ""
        if is_dump:
            info.written(path, info.read(path).ljust(DUMP, b"\xff"))
        judge(what, path, order, block, folder, files)
        count += 1
    print(f"{count} images; the size that was taken: {', '.join(f'{kind} {number}' for kind, number in sorted(sizes.items()))}")


# ---- what is no image

def is_refused(what, path, wanted):
    """Each command ends with these lines, and makes nothing."""
    made = path + ".made"
    for command, more in (("ls", ()), ("check", ()), ("cat", ("/text",)), ("extract", (made,))):
        ran = run(command, "--auto", path, *more)
        test(f"{what}: {command}", [] if ran == (1, b"", wanted) and not os.path.exists(made) else [f"{ran}, wanted {wanted}"])


def trx(data):
    """What stands before a kernel or an image in the firmware of a router, and these bytes."""
    return b"HDR0" + struct.pack("<IIHHIII", len(data) + 28, 0, 0, 1, 28, 0, 0) + data


def uimage(data):
    """The same of U-Boot."""
    return struct.pack(">IIIIIIIBBBB32s", 0x27051956, 0, 0, len(data), 0, 0, 0, 5, 2, 7, 0, b"x") + data


def behind(folder, image):
    """An image behind a header, or behind a boot loader in a dump of the whole flash, is shown, and a note counts what else is there."""
    decompress.produced(folder, image, "default", "little", 64)
    data = info.read(image)
    for kind, content in (("a TRX header", trx(data)), ("a uImage header", uimage(data)), ("a boot loader", info.read("/bin/bash")[:262144] + data)):
        status, out, errors, _ = found("ls", info.written(image + ".behind", content))
        faults = tree.differences(tree.listed(out.decode()), tree.expected(folder, tree.Squash()))
        fine = status == 0 and re.match(r"jffs2_image: note: \d+ findings?, see check --scan", errors)
        test(f"behind {kind}: ls", faults if fine else [f"status {status}: {errors}"])
        wanted, made = folders.facts(folder)[0], image + ".extracted"
        status, _, errors, _ = found("extract", image + ".behind", "--owners", made)
        test(f"behind {kind}: extract", folders.differences(folders.facts(made.encode())[0], wanted) + ([] if status == 3 else [f"status {status}: {errors}"]))
        shutil.rmtree(made, ignore_errors=True)


def containers(image):
    """Files of other kinds, by what a note has to call them, with no node in them that could be read."""
    data, noise = info.read(image), random.Random(3).randbytes(300000)
    return {
        "gzip": gzip.compress(data),
        "xz": lzma.compress(data),
        "UBI": info.of_ubi(image, noise),
        "squashfs": b"hsqs" + noise,
        "a TRX header": trx(noise),
        "a uImage header": uimage(noise),
    }


def others(folder, image):
    """What is no image is refused, with a line that says what the file begins as, where that is known."""
    # an image of texts alone: noise is stored as it is in a file of xz, with its nodes
    decompress.produced(os.path.join(folder, b"deep/er"), image, "default", "little", 64)
    other = image + ".other"
    for kind, content in containers(image).items():
        is_refused(kind, info.written(other, content), f"jffs2_image: note: the file begins as {kind} does\n{NOTHING}")
    plain = {
        "empty": b"", "a byte": b"\x85", "text": info.read(__file__), "machine code": info.read("/bin/bash"), "zeros": bytes(100000),
        "erased": b"\xff" * 100000, "noise": random.Random(4).randbytes(1000000), "half a node": info.read(image)[12:40],
    }
    for kind, content in plain.items():
        is_refused(kind, info.written(other, content), NOTHING)
    os.remove(other)
    is_refused("missing", other, f"jffs2_image: P1 File {other}\njffs2_image: note: {other}: no such file")
    place = os.fsdecode(folder)
    is_refused("a folder", place, f"jffs2_image: L1 Device\njffs2_image: note: {place}: is a directory")


def main():
    with tempfile.TemporaryDirectory(prefix="auto-") as place:
        folder, image = os.path.join(place, "folder").encode(), os.path.join(place, "image")
        make(folder)
        return run_groups((images, behind, others), folder, image)


if __name__ == "__main__":
    sys.exit(main())
