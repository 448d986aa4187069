#!/usr/bin/env python3
"""Makes the images that the benchmarks read: python3 bench/images.py FOLDER [MEBIBYTES]

  data.img     one file of 4 KiB nodes, one node after another
  entries.img  small entries of the root
  erased.img   erased flash

Little order, erase blocks of 65,536 bytes, each begun by its clean marker.
"""
import os
import random
import struct
import sys
import zlib

BLOCK = 65536


def crc(data):
    """CRC-32 with start value 0 and no final inversion, by zlib's."""
    return zlib.crc32(data, 0xFFFFFFFF) ^ 0xFFFFFFFF


def header(nodetype, totlen):
    front = struct.pack("<HHI", 0x1985, nodetype, totlen)
    return front + struct.pack("<I", crc(front))


def entry(pino, version, ino, name):
    front = header(0xE001, 40 + len(name)) + struct.pack("<IIIIBBH", pino, version, ino, 0, len(name), 8, 0)
    return front + struct.pack("<II", crc(front), crc(name)) + name


def inode(ino, version, offset, size, data, mode=0o100644):
    front = header(0xE002, 68 + len(data)) + struct.pack(
        "<IIIHHIIIIIIIBBH", ino, version, mode, 0, 0, size, 0, 0, 0, offset, len(data), len(data), 0, 0, 0
    )
    return front + struct.pack("<II", crc(data), crc(front)) + data


def blocks(nodes, count):
    """Lays nodes into blocks, each begun by its marker, until the blocks are full."""
    marker, block, made = header(0x2003, 12), b"", []
    for node in nodes:
        node += b"\xff" * (-len(node) % 4)
        block = block or marker
        if len(block) + len(node) > BLOCK:
            made.append(block.ljust(BLOCK, b"\xff"))
            if len(made) == count:
                return b"".join(made)
            block = marker
        block += node
    made.append(block.ljust(BLOCK, b"\xff"))
    return b"".join(made)


def data_nodes():
    page, k = random.Random(1).randbytes(1 << 20), 0
    yield entry(1, 1, 2, b"file")
    while True:
        at = k * 4096 % ((1 << 20) - 4096)
        yield inode(2, k + 1, k * 4096, (k + 1) * 4096, page[at : at + 4096])
        k += 1


def entries():
    k = 0
    while True:
        yield entry(1, k + 1, k + 2, b"name%d" % k)
        k += 1


def main():
    folder, size = sys.argv[1], int(sys.argv[2]) if len(sys.argv) > 2 else 64
    count = size * (1 << 20) // BLOCK
    os.makedirs(folder, exist_ok=True)
    for name, image in (
        ("data.img", blocks(data_nodes(), count)),
        ("entries.img", blocks(entries(), count)),
        ("erased.img", b"\xff" * (count * BLOCK)),
    ):
        with open(os.path.join(folder, name), "wb") as out:
            out.write(image)


if __name__ == "__main__":
    main()
