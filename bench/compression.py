#!/usr/bin/env python3
"""Decompression beside zlib, liblzo2 and a loop in C: python3 bench/compression.py FOLDER [RUNS] [CRATES]

Makes files of 4 KiB pieces of text, of machine code and of random bytes, packed by zlib (level 6), by liblzo2 (lzo1x_1, as Linux
does, and lzo1x_999, as mkfs.jffs2 does) and in RTIME, and runs `bench_inflate` and bench/inflate.c on each, one after the other,
so that other work on the machine meets both. It prints the least processor time of each over the runs for one piece, and the
ratio. The hostile node is 4 KiB of blocks that each have codes of 15 bits of their own. Needs cc, zlib1g-dev and liblzo2-dev. The
programs are those that `rt run` built here, or in CRATES.
"""
import os
import random
import subprocess
import sys

HERE = os.path.dirname(os.path.abspath(__file__))
sys.path.insert(0, os.path.join(HERE, "../tests/peers"))
import streams  # noqa: E402
from measuring import documents, least_in_turn, machine_code  # noqa: E402

FOLDER = os.path.abspath(sys.argv[1])
RUNS = int(sys.argv[2]) if len(sys.argv) > 2 else 7
CRATES = sys.argv[3] if len(sys.argv) > 3 else os.path.join(HERE, "../crates")
PIECE = 4096
PIECES = 64
NUMBERS = {"rtime": 2, "zlib": 6, "lzo": 7}
PACKERS = (
    ("zlib", "zlib", streams.zlib_packed),
    ("lzo1x_1", "lzo", streams.lzo_packed),
    ("lzo1x_999", "lzo", lambda piece: streams.lzo_packed(piece, "lzo1x_999_compress")),
    ("rtime", "rtime", streams.rtime_packed),
)


def pieces_of(content):
    return [content[k * PIECE : (k + 1) * PIECE] for k in range(min(PIECES, len(content) // PIECE))]


def hostile():
    """4 KiB of blocks of 30 bytes: each has codes of 15 bits for literals and for distances, and ends at once."""
    deep = list(range(1, 16))
    of_lengths = [0] + [4] * 15 + [0, 0, 4]
    codes = streams.codes_of(of_lengths)
    write = streams.Bits()
    literals = streams.codes_of(deep + [0] * 241 + [15])
    for last in [0] * 134 + [1]:
        write.front(2, last).number(0, 5).number(15, 5).number(15, 4)
        for place in streams.ORDER:
            write.number(of_lengths[place], 3)
        for length in deep:
            write.code(codes[length])
        write.code(codes[18]).number(127, 7).code(codes[18]).number(92, 7).code(codes[15])
        for length in (*deep, 15):
            write.code(codes[length])
        if last:
            write.code(literals[0])
        write.code(literals[256])
    return streams.wrapped(write.bytes(), b"\0")


def stream_of(method, content, data):
    """A stream as `bench_inflate` reads it."""
    assert streams.CONTENTS[method](data, len(content)) == content
    numbers = len(content).to_bytes(4, "little") + len(data).to_bytes(4, "little")
    return bytes((NUMBERS[method], 1)) + numbers + data + content


def compare(name, file, count, bytes_in):
    """Runs both on a file, and prints what a stream takes, and the ratio."""
    rounds = max(1, 40_000 // count)
    commands = [[program, file, str(rounds)] for program in (f"{CRATES}/bench_inflate/out/bench_inflate", f"{FOLDER}/inflate")]
    ours, theirs = (seconds / rounds / count * 1e6 for seconds in least_in_turn(commands, FOLDER, RUNS))
    print(f"{name:24} {bytes_in:5} bytes  ours {ours:7.2f} us  C {theirs:7.2f} us {ours / theirs:6.2f} times", flush=True)


def main():
    os.makedirs(FOLDER, exist_ok=True)
    subprocess.run(["cc", "-O2", "-o", f"{FOLDER}/inflate", f"{HERE}/inflate.c", "-lz", "-llzo2"], check=True)
    kinds = {"text": documents(), "machine code": machine_code(), "random bytes": random.Random(1).randbytes(PIECE * PIECES)}
    cases = []
    for packer, method, pack in PACKERS:
        for kind, content in kinds.items():
            cases.append((f"{packer} {kind}", [stream_of(method, piece, pack(piece)) for piece in pieces_of(content)]))
    cases.append(("zlib hostile node", [stream_of("zlib", b"\0", hostile())]))
    for name, made in cases:
        file = f"{FOLDER}/{name.replace(' ', '_')}.bin"
        with open(file, "wb") as out:
            out.write(b"".join(made))
        packed = sum(int.from_bytes(stream[6:10], "little") for stream in made) // len(made)
        compare(name, file, len(made), packed)


if __name__ == "__main__":
    main()
