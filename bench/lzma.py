#!/usr/bin/env python3
"""LZMA beside liblzma: python3 bench/lzma.py FOLDER [RUNS] [CRATES]

Makes files of 4 KiB pieces of text, of machine code and of zeros, packed by liblzma (without a mark of the end), and runs
`bench_inflate` and bench/lzma.c on each, one after the other, so that other work on the machine meets both. It prints the least
processor time of each over the runs for one piece, and the ratio. Needs cc and liblzma-dev. The program is the one that `rt run`
built here, or in CRATES.
"""
import importlib.util
import os
import subprocess
import sys

from measuring import documents, least_in_turn, machine_code

HERE = os.path.dirname(os.path.abspath(__file__))
FOLDER = os.path.abspath(sys.argv[1])
RUNS = int(sys.argv[2]) if len(sys.argv) > 2 else 7
CRATES = sys.argv[3] if len(sys.argv) > 3 else os.path.join(HERE, "../crates")
PIECE, PIECES, ROUNDS = 4096, 64, 40


def peer():
    """tests/peers/lzma.py, under another name than that of Python's own module."""
    named = importlib.util.spec_from_file_location("peer_lzma", f"{HERE}/../tests/peers/lzma.py")
    module = importlib.util.module_from_spec(named)
    sys.path[:] = [folder for folder in sys.path if os.path.abspath(folder or ".") != HERE]
    named.loader.exec_module(module)
    return module


def compare(name, file, made):
    commands = [[program, file, str(ROUNDS)] for program in (f"{CRATES}/bench_inflate/out/bench_inflate", f"{FOLDER}/lzma")]
    ours, theirs = (seconds / ROUNDS / len(made) * 1e6 for seconds in least_in_turn(commands, FOLDER, RUNS))
    packed = sum(map(len, made)) // len(made)
    print(f"{name:14} {packed:5} bytes  ours {ours:7.2f} us  C {theirs:7.2f} us {ours / theirs:6.2f} times", flush=True)


def main():
    pack = peer().by_liblzma
    os.makedirs(FOLDER, exist_ok=True)
    subprocess.run(["cc", "-O2", "-o", f"{FOLDER}/lzma", f"{HERE}/lzma.c", "-llzma"], check=True)
    kinds = {"text": documents(), "machine code": machine_code(), "zeros": bytes(PIECE * PIECES)}
    for name, content in kinds.items():
        pieces = [content[k * PIECE : (k + 1) * PIECE] for k in range(min(PIECES, len(content) // PIECE))]
        packed = [(piece, pack(piece)) for piece in pieces]
        packed = [(piece, data) for piece, data in packed if data is not None]
        file = f"{FOLDER}/lzma_{name.replace(' ', '_')}.bin"
        with open(file, "wb") as out:
            for piece, data in packed:
                numbers = len(piece).to_bytes(4, "little") + len(data).to_bytes(4, "little")
                out.write(b"\x08\x01" + numbers + data + piece)
        compare(name, file, [data for _, data in packed])


if __name__ == "__main__":
    main()
