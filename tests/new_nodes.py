#!/usr/bin/env python3
"""The image that a new object makes of an empty flash, by the tables of docs/FORMAT.md and no code of the crates.

Usage: tests/new_nodes.py fifo|socket|character|block little|big. Its bytes go to standard output; tests/listings.py compares them.
"""
import struct
import sys
import zlib


def crc(data):
    """Start 0, and nothing at the end."""
    return zlib.crc32(data, 0xFFFFFFFF) ^ 0xFFFFFFFF


def header(order, kind, totlen):
    front = struct.pack(order + "HHI", 0x1985, kind, totlen)
    return front + struct.pack(order + "I", crc(front))


def inode(order, mode, isize, data):
    """Object 2 of owners 5 and 6, at time 7."""
    size = len(data)
    node = header(order, 0xE002, 68 + size)
    node += struct.pack(order + "IIIHH", 2, 1, mode, 5, 6)
    node += struct.pack(order + "IIII", isize, 7, 7, 7)
    node += struct.pack(order + "IIIBBH", 0, size, size, 0, 0, 0)
    return node + struct.pack(order + "II", crc(data) if data else 0, crc(node)) + data


def entry(order, kind, name):
    """The root's first name, for object 2."""
    node = header(order, 0xE001, 40 + len(name))
    node += struct.pack(order + "IIIIBBH", 1, 1, 2, 7, len(name), kind, 0)
    return node + struct.pack(order + "II", crc(node), crc(name)) + name


def padded(data):
    return data + b"\xff" * (-len(data) % 4)


def image(order, mode, name, isize=0, data=b""):
    out = header(order, 0x2003, 12)
    for node in (inode(order, mode, isize, data), entry(order, mode >> 12, name)):
        out = padded(out) + node
    return padded(out)


def number(order, major, minor):
    """A device's number: two bytes where they serve, else four."""
    if major <= 255 and minor <= 255:
        return struct.pack(order + "H", major << 8 | minor)
    return struct.pack(order + "I", minor & 0xff | major << 8 | (minor & 0xfff00) << 12)


KINDS = {"fifo": (0o010622, b"p"), "socket": (0o140755, b"s")}
DEVICES = {"character": (0o020620, b"c", 4, 1), "block": (0o060640, b"b", 259, 65537)}
ORDERS = {"little": "<", "big": ">"}


def main(kind, order):
    assert crc(b"123456789") == 0x2DFD2D88
    order = ORDERS[order]
    if kind in DEVICES:
        mode, name, major, minor = DEVICES[kind]
        out = image(order, mode, name, 0, number(order, major, minor))
    else:
        out = image(order, *KINDS[kind])
    sys.stdout.buffer.write(out)


main(*sys.argv[1:])
