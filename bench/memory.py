#!/usr/bin/env python3
"""What a mount takes of memory: python3 bench/memory.py FOLDER [COUNT] [CRATES]

Makes images of COUNT (200000, where it is not given) and twice as many small things, mounts each by `bench_mount`, and prints
the greatest memory over that of the bare checksum of the same image, as bytes for each thing, and the processor time. The
programs are those that `rt run` built in CRATES (here, where it is not given).

  numbers      inode nodes without data, each of a number of its own
  data         the same with four bytes each
  versions     two inode nodes a number
  pieces       the same with four bytes each, side by side
  directories  entries, each in a directory number of its own
  pairs        two entries a directory
  children     directories: an inode node, and one entry
"""
import os
import sys

from images import blocks, entry, inode
from measuring import taken

HERE = os.path.dirname(os.path.abspath(__file__))


def numbers(count):
    for k in range(count):
        yield inode(k + 2, 1, 0, 0, b"")


def data(count):
    for k in range(count):
        yield inode(k + 2, 1, 0, 4, b"data")


def versions(count):
    for k in range(count):
        yield inode(k + 2, 1, 0, 0, b"")
        yield inode(k + 2, 2, 0, 1, b"")


def pieces(count):
    for k in range(count):
        yield inode(k + 2, 1, 0, 4, b"data")
        yield inode(k + 2, 2, 4, 8, b"data")


def directories(count):
    for k in range(count):
        yield entry(k + 2, 1, 1, b"name")


def pairs(count):
    for k in range(count):
        yield entry(k + 2, 1, 1, b"name")
        yield entry(k + 2, 2, 1, b"other")


def children(count):
    for k in range(count):
        yield inode(k + 2, 1, 0, 0, b"")
        yield entry(k + 2, 2, 1, b"name")


THINGS = (numbers, data, versions, pieces, directories, pairs, children)


def main():
    folder, count = sys.argv[1], int(sys.argv[2]) if len(sys.argv) > 2 else 200000
    crates = sys.argv[3] if len(sys.argv) > 3 else os.path.join(HERE, "../crates")
    os.makedirs(folder, exist_ok=True)
    for things in THINGS:
        for times in (1, 2):
            path = os.path.join(folder, "things.img")
            with open(path, "wb") as out:
                out.write(blocks(things(count * times), count * times))
            mount, checksum = ([os.path.join(crates, f"{name}/out/{name}"), path] for name in ("bench_mount", "bench_crc"))
            seconds, memory = taken(mount, folder)
            _, image = taken(checksum, folder)
            each = (memory - image) * 1024 / (count * times)
            print(f"{things.__name__:12} {count * times:8} {each:6.0f} bytes each {memory // 1024:6} MiB {seconds:7.2f} s", flush=True)


if __name__ == "__main__":
    main()
