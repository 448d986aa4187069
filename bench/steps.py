#!/usr/bin/env python3
"""What an index and operations take of time and memory: python3 bench/steps.py FOLDER [COUNT] [CRATES]

Makes images of COUNT (50000, where it is not given) and twice as many files in the root, and runs `bench_steps` on each, five
times in turn: `Index::of`, and 100,000 operations of each kind, each planned and its steps taken. It prints the least
milliseconds of each, and how many times longer the greater image takes.

Then it makes images of 26 times COUNT small things (bench/memory.py says which, and `files` are those above), and prints the
greatest memory over the size of the image, in MiB: of a mount, and of a mount and the index of it.

The programs are those that `rt run` built in CRATES (here, where it is not given).
"""
import os
import subprocess
import sys

import memory
from images import blocks, entry, inode
from measuring import taken

HERE = os.path.dirname(os.path.abspath(__file__))
OPERATIONS = 100000
RUNS = 5


def files(count):
    for k in range(count):
        yield inode(k + 2, 1, 0, 0, b"")
        yield entry(1, k + 1, k + 2, b"0name%d" % k)


def measured(program, image, count):
    """Runs the program once, and returns the milliseconds of each part."""
    words = [program, image, str(OPERATIONS), str(count)]
    lines = subprocess.run(words, check=True, capture_output=True, text=True).stdout.split("\n")
    parts = [line.split() for line in lines if line.endswith(" ms")]
    return {words[0]: int(words[2]) for words in parts}


def main():
    folder, count = sys.argv[1], int(sys.argv[2]) if len(sys.argv) > 2 else 50000
    crates = sys.argv[3] if len(sys.argv) > 3 else os.path.join(HERE, "../crates")
    program, mount = (os.path.join(crates, f"{name}/out/{name}") for name in ("bench_steps", "bench_mount"))
    os.makedirs(folder, exist_ok=True)
    images = {}
    for size in (count, 2 * count):
        images[size] = os.path.join(folder, f"files{size}.img")
        with open(images[size], "wb") as out:
            out.write(blocks(files(size), size))
    runs = [{size: measured(program, image, size) for size, image in images.items()} for _ in range(RUNS)]
    for part in ("index", "create", "rename"):
        once, twice = (min(run[size][part] for run in runs) for size in images)
        print(f"{part:8} {count:8} {once:6} ms {2 * count:8} {twice:6} ms {twice / max(once, 1):6.2f} times", flush=True)
    for things in (files, *memory.THINGS):
        path = os.path.join(folder, "things.img")
        with open(path, "wb") as out:
            out.write(blocks(things(26 * count), 26 * count))
        alone, both = (taken(words, folder)[1] / 1024 - os.path.getsize(path) / (1 << 20) for words in ([mount, path], [program, path, "0", "1"]))
        print(f"{things.__name__:12} {26 * count:8} mount {alone:6.0f} MiB, with its index {both:6.0f} MiB", flush=True)


if __name__ == "__main__":
    main()
