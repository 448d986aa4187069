#!/usr/bin/env python3
"""Compresses real files by `jpack` and has zlib read each answer: tests/peers/packing.py [PROGRAM] [FILE ..]

Each file is cut into pieces of 4 KiB, of 16 KiB, and of a few bytes, and PROGRAM, which `rt run` makes of crates/bench_deflate,
compresses them. Python's zlib has to give each piece back, and each piece has to have an answer. Without FILEs the documents,
the scripts, the shell, the C library, random bytes, zeros, and contents whose codes would have more than 15 bits are taken. It
prints the bytes beside those of zlib's level 9, and ends with status 1 where a piece has no answer or another one.
"""
import glob
import os
import random
import subprocess
import sys
import tempfile
import zlib

ROOT = os.path.dirname(os.path.dirname(os.path.dirname(os.path.abspath(__file__))))
PROGRAM = os.path.abspath(sys.argv[1]) if len(sys.argv) > 1 else f"{ROOT}/crates/bench_deflate/out/bench_deflate"
MOST = 1 << 20
SMALL = (1, 2, 3, 4, 5, 7, 17, 63, 255, 257, 258, 259, 300, 1000)


# The distance symbols from 5 on, by their greatest distances in words of four bytes.
GREATEST = [2, 3, 4, 6, 8, 12, 16, 24, 32, 48, 64, 96, 128, 192, 256, 384, 512, 768]


def deep():
    """A content whose distances come as often as Fibonacci's numbers, so that the rarest would have codes of 17 bits.

    It is made of words of four bytes. From some point on each has stood before, so many words ago, behind another byte and before
    another one, so that each is a copy of four bytes."""
    pick = random.Random(1)
    words = [pick.randbytes(4) for _ in range(770)]
    last = {word: place for place, word in enumerate(words)}
    met = {(words[place][3], words[place + 1]) for place in range(769)} | {(words[place], words[place + 1][0]) for place in range(769)}
    left = [1, 1]
    while len(left) < len(GREATEST):
        left.append(left[-1] + left[-2])
    while any(left):
        order = sorted((kind for kind in range(len(left)) if left[kind]), key=lambda kind: -left[kind] * pick.random())
        found = None
        for kind in order:
            least = GREATEST[kind - 1] + 1 if kind else 2
            for gap in pick.sample(range(least, GREATEST[kind] + 1), GREATEST[kind] + 1 - least):
                word, here = words[-gap], words[-1]
                if last[word] == len(words) - gap and not {(here[3], word), (here, word[0])} & met:
                    found = kind, word, {(here[3], word), (here, word[0])}
                    break
            if found:
                break
        if not found:
            break
        left[found[0]] -= 1
        met |= found[2]
        last[found[1]] = len(words)
        words.append(found[1])
    return b"".join(words)[:32768]


def contents(files):
    """The names and the bytes that are compressed."""
    if files:
        return {name: read(name) for name in files}
    return {
        "documents": b"".join(read(name) for name in sorted(glob.glob(f"{ROOT}/docs/*.md"))),
        "scripts": b"".join(read(name) for name in sorted(glob.glob(f"{ROOT}/tests/**/*.py", recursive=True))),
        "shell": read(os.path.realpath("/bin/bash")),
        "C library": read(glob.glob("/lib/x86_64-linux-gnu/libc.so.6")[0]),
        "random bytes": random.Random(1).randbytes(1 << 17),
        "zeros": bytes(1 << 17),
        "deep codes": deep(),
    }


def read(name):
    with open(name, "rb") as file:
        return file.read()


def streams_of(content, piece):
    """What the program makes of a content, piece by piece."""
    with tempfile.TemporaryDirectory(prefix="packing-") as folder:
        with open(f"{folder}/content", "wb") as file:
            file.write(content)
        words = [PROGRAM, f"{folder}/content", str(piece), "1", f"{folder}/streams"]
        subprocess.run(words, check=True, stdout=subprocess.DEVNULL)
        told = read(f"{folder}/streams")
    at, streams = 0, []
    while at < len(told):
        length = int.from_bytes(told[at : at + 4], "little")
        streams.append(told[at + 4 : at + 4 + length])
        at += 4 + length
    return streams


def gives(stream, wanted):
    """Whether zlib gives just these bytes, and takes all of the stream."""
    try:
        reader = zlib.decompressobj()
        return reader.decompress(stream) == wanted and reader.eof and not reader.unused_data
    except zlib.error:
        return False


def judge(name, content, piece):
    """Compresses a content, prints the lengths, and answers how many pieces have no right answer."""
    pieces = [content[at : at + piece] for at in range(0, len(content), piece)]
    streams = streams_of(content, piece)
    bad = sum(not gives(stream, wanted) for stream, wanted in zip(streams, pieces)) + abs(len(pieces) - len(streams))
    ours, nine = sum(map(len, streams)), sum(len(zlib.compress(wanted, 9)) for wanted in pieces)
    print(f"{name:14} pieces of {piece:5}: {len(pieces):6}, bad {bad}, {ours:8} bytes, zlib 9 {nine:8}, {ours / nine:.4f}", flush=True)
    return bad


def main():
    bad = 0
    for name, content in contents(sys.argv[2:]).items():
        for piece in (4096, 16384, 32768):
            bad += judge(name, content[:MOST], piece)
        for piece in SMALL:
            bad += judge(name, content[:3000], piece)
    print(f"zlib {zlib.ZLIB_RUNTIME_VERSION}: {bad} pieces without a right answer")
    return 1 if bad else 0


if __name__ == "__main__":
    sys.exit(main())
