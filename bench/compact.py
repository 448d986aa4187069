#!/usr/bin/env python3
"""`compact` beside `check --decompress` of the same image:
python3 bench/compact.py FOLDER [RUNS] [CRATES] [MEBIBYTES ..]

Makes the images of bench/decompress.py, of folders of 16 and 64 MiB (or of those that are told), and
of each one that was used: each inode node and each entry stands twice, the second time with a
greater version, so half of the nodes are superseded. It runs `compact` and `check --decompress`, which
reads each node's content once, on both, one after the other. `compact` has to keep half of the nodes
of the image that was used. It prints the least processor time of each over the runs, the ratio (aim:
1.3), the memory over the image's length, and the length of OUT beside that of mkfs.jffs2 of the same
tree. Needs mtd-utils. The program is the one that `rt run` built here, or in CRATES; where CRATES is a file, that
program.
"""
import os
import struct
import sys

import decompress
from decompress import FOLDER, PROGRAM, RUNS
from images import crc
from measuring import measured

SIZES = [int(word) for word in sys.argv[4:]] or [16, 64]
BLOCK, MARKER, GREATER = 65536, 12, 1 << 20
KINDS = {0xE001: (16, 32), 0xE002: (16, 64)}  # where the version is, and the checksum of the node


def nodes_of(image):
    """The bytes of each entry and inode node of an image of mkfs.jffs2, little order."""
    at = 0
    while at + 12 <= len(image):
        magic, kind, length = struct.unpack_from("<HHI", image, at)
        if magic != 0x1985:
            at += 4
            continue
        if kind in KINDS:
            yield kind, image[at : at + length]
        at += -(-length // 4) * 4


def later(kind, node):
    """The node with a greater version."""
    place, sums = KINDS[kind]
    node = bytearray(node)
    struct.pack_into("<I", node, place, struct.unpack_from("<I", node, place)[0] + GREATER)
    covered = 60 if kind == 0xE002 else 32
    struct.pack_into("<I", node, sums, crc(bytes(node[:covered])))
    return bytes(node)


def laid(nodes):
    """The nodes block by block, each block with its clean marker, up to the end of the last one."""
    front = struct.pack("<HHI", 0x1985, 0x2003, MARKER)
    marker, image = front + struct.pack("<I", crc(front)), bytearray()
    for node in nodes:
        node += b"\xff" * (-len(node) % 4)
        if len(image) % BLOCK == 0 or len(image) % BLOCK + len(node) > BLOCK:
            image += b"\xff" * (-len(image) % BLOCK) + marker
        image += node
    return bytes(image + b"\xff" * (-len(image) % BLOCK))


def used_of(name):
    """The image that was used, of one of mkfs.jffs2; and how many nodes that has."""
    with open(name, "rb") as file:
        nodes = list(nodes_of(file.read()))
    used = name.replace("default", "used")
    if not os.path.exists(used):
        with open(used, "wb") as file:
            file.write(laid(node for _, node in nodes) + laid(later(*node) for node in nodes))
    return used, len(nodes)


def compare(image, kept, nodes, whole):
    """Runs both on an image, and prints what they took."""
    out = f"{FOLDER}/compact.img"
    commands = ([PROGRAM, "compact", image, out], [PROGRAM, "check", "--decompress", image])
    times, memory = ([], []), 0
    for _ in range(RUNS):
        for place, words in enumerate(commands):
            seconds, kib, _ = measured(words, FOLDER)
            times[place].append(seconds)
            if place == 0:
                memory = max(memory, kib)
                with open(f"{FOLDER}/out", encoding="utf-8") as told:
                    line = told.read()
    if not line.startswith(f"compacted {kept} of {nodes} nodes bytes "):
        sys.exit(f"{image}: {line}")
    first, second = min(times[0]), min(times[1])
    over = memory / 1024 - os.path.getsize(image) / (1 << 20)
    print(
        f"{os.path.basename(image):14} compact {first:6.3f} s, check --decompress {second:6.3f} s:"
        f" {first / second:5.2f} times; {over:6.1f} MiB over the image;"
        f" OUT {os.path.getsize(out)} bytes, mkfs.jffs2 {whole}: {os.path.getsize(out) / whole:5.3f} times;"
        f" {line.strip()}",
        flush=True,
    )
    os.remove(out)


def main():
    os.makedirs(FOLDER, exist_ok=True)
    for mebibytes in SIZES:
        image = decompress.image_of(mebibytes)
        used, count = used_of(image)
        whole = os.path.getsize(image)
        compare(image, count, count, whole)
        compare(used, count, 2 * count, whole)


if __name__ == "__main__":
    main()
