#!/usr/bin/env python3
"""Compares what `info` prints with what images were made by: see info.sh, which starts it."""
import gzip
import itertools
import lzma
import os
import random
import re
import struct
import subprocess
import sys
import tempfile

import tree
from judging import run, run_groups, test

HERE = os.path.dirname(os.path.abspath(__file__))
sys.path.append(os.path.dirname(HERE))
import info_model as model  # noqa: E402

ORDERS = ("little", "big")
BLOCKS = (8, 16, 32, 64, 128, 256)
# how mkfs.jffs2 stores data, and whether it writes clean markers and fills the last block
METHODS = {"none": ("-m", "none"), "default": (), "lzo": ("-X", "lzo", "-x", "zlib", "-x", "rtime")}
SHAPES = ((), ("-n",), ("-p",))
RANGE = re.compile(r"block from (\d+) to (\d+) markers (\d+)")


def written(path, data):
    with open(path, "wb") as file:
        file.write(data)
    return path


def read(path):
    with open(path, "rb") as file:
        return file.read()


def told(what, path):
    """The lines that `info` prints of a file; they and the status are those of the model."""
    data = read(path)
    status, out, errors = run("info", path)
    lines, note = model.lines(data), model.note(data)
    wanted = (3 if "order none" in lines else 0, f"jffs2_image: note: {note}" if note else "")
    faults = [] if out.decode().splitlines() == lines else [f"{out.decode()!r}, wanted {lines}"]
    faults += [] if (status, errors) == wanted else [f"status {status}: {errors}, wanted {wanted}"]
    test(f"{what}: lines", faults)
    return out.decode().splitlines(), errors


def judge(what, path, order, block, known=True):
    """The order is the image's, and its block size lies within the range where that is known."""
    lines, errors = told(what, path)
    fine = lines[1].startswith(f"order {order} nodes ") and not errors
    test(f"{what}: order", [] if fine else [f"{lines[1]} {errors}"])
    found = RANGE.fullmatch(lines[2])
    fine = int(found[1]) <= block <= int(found[2]) if found else not known
    test(f"{what}: block", [] if fine else [f"{lines[2]}, and it is {block}"])
    return bool(found)


def made(folder, image, options):
    words = ["mkfs.jffs2", "-r", folder, "-o", image, *options]
    subprocess.run(words, check=True, capture_output=True)
    return " ".join(("mkfs.jffs2", *options))


def of_mkfs(folder, image):
    """Images of mkfs.jffs2, and the same by sumtool. Without markers no block size is known."""
    for order, block, method, shape in itertools.product(ORDERS, BLOCKS, METHODS, SHAPES):
        geometry = ("-l" if order == "little" else "-b", "-e", f"{block}KiB")
        what = made(folder, image, (*geometry, *METHODS[method], *shape))
        marked = "-n" not in shape and os.path.getsize(image) > block * 1024
        judge(what, image, order, block * 1024, marked)
        words = ["sumtool", *geometry, "-i", image, "-o", image + ".sums", *shape[:1]]
        subprocess.run(words, check=True, capture_output=True)
        judge(f"{what}, sumtool", image + ".sums", order, block * 1024, marked)


def of_ours(folder, image):
    """Images of build, of append to them, and of decompress."""
    listing = written(image + ".txt", run("listing", "--owner", "0", "0", folder)[1])
    more = written(image + ".more", b"mkdir 0755 /more\ncreate 0644 /more/file\n" + write_lines())
    for order, block in itertools.product(ORDERS, BLOCKS):
        words = ["--endian", order, "--block", str(block * 1024)]
        flash = [*words, "--blocks", str(65536 // block)]
        for command in (("build", *flash, listing, image), ("append", *flash, image, more, image)):
            status, _, errors = run(*command)
            assert status == 0, errors
            what = f"{command[0]} {' '.join(words)}"
            judge(what, image, order, block * 1024, os.path.getsize(image) > block * 1024)
        made(folder, image, ["-l" if order == "little" else "-b", "-e", f"{block}KiB"])
        assert run("decompress", *words, image, image)[0] == 0
        what = f"decompress {' '.join(words)}"
        judge(what, image, order, block * 1024, os.path.getsize(image) > block * 1024)


def write_lines():
    """Lines that write a file of 300,000 bytes."""
    text = random.Random(2).randbytes(3000).hex()
    return b"".join(b"write /more/file %d %s\n" % (3000 * i, text.encode()) for i in range(100))


def part_of_a_dump(folder, image):
    """A dump that is cut in front and at the end, and one with a boot loader before the image."""
    made(folder, image, ["-l", "-e", "64KiB", "-m", "none"])
    data = read(image)
    for what, part in (("cut in front", data[131072:]), ("cut at the end", data[:200000]),
                       ("behind a boot loader", read("/bin/bash")[:262144] + data)):
        judge(what, written(image + ".part", part), "little", 65536)


def of_ubi(image, data):
    """A UBI image of one volume with these bytes, as ubinize makes it."""
    volume = written(image + ".volume", data)
    size = (len(data) // 65536 + 8) * 65536
    words = ["[v]", "mode=ubi", f"image={volume}", "vol_id=0", f"vol_size={size}", "vol_name=v", "vol_type=dynamic"]
    table = written(image + ".ini", "\n".join(words).encode())
    out = image + ".ubi"
    subprocess.run(["ubinize", "-o", out, "-p", "128KiB", "-m", "2048", table], check=True, capture_output=True)
    return read(out)


def others(folder, image):
    """What is no image, and what has one inside: told by a note, with no node where there is none."""
    made(folder, image, ["-l", "-e", "64KiB"])
    data = read(image)
    kinds = {
        "gzip": gzip.compress(data), "xz": lzma.compress(data), "UBI": of_ubi(image, data),
        "squashfs": b"hsqs" + random.Random(3).randbytes(100000),
        "a TRX header": b"HDR0" + struct.pack("<IIHHIII", len(data) + 28, 0, 0, 1, 28, 0, 0) + data,
        "a uImage header": struct.pack(">IIIIIIIBBBB32s", 0x27051956, 0, 0, len(data), 0, 0, 0, 5, 2, 7, 0, b"x") + data,
    }
    for kind, content in kinds.items():
        lines, errors = told(kind, written(image + ".kind", content))
        fine = errors == f"jffs2_image: note: the file begins as {kind} does"
        fine = fine and (lines[1] == "order none") == (kind in ("gzip", "xz", "squashfs"))
        test(f"{kind}: note", [] if fine else [f"{lines[1]} {errors}"])
    for kind, content in (("empty", b""), ("text", read(__file__)), ("machine code", read("/bin/bash")),
                          ("zeros", bytes(100000)), ("erased", b"\xff" * 100000),
                          ("noise", random.Random(4).randbytes(1000000)), ("a byte", b"\x85")):
        lines, errors = told(kind, written(image + ".kind", content))
        fine = lines[0] == f"bytes {len(content)}" and lines[1:3] == ["order none", "block unknown"] and not errors
        test(f"{kind}: none", [] if fine else [f"{lines} {errors}"])


def main():
    with tempfile.TemporaryDirectory(prefix="info-") as place:
        folder, image = os.path.join(place, "folder"), os.path.join(place, "image")
        tree.make(os.fsencode(folder))
        return run_groups((of_mkfs, of_ours, part_of_a_dump, others), folder, image)


if __name__ == "__main__":
    sys.exit(main())
