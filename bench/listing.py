#!/usr/bin/env python3
"""How long a listing takes to be read: python3 bench/listing.py FOLDER [COUNT] [RUNS] [CRATES]

Makes listings of COUNT (1000000, where it is not given) and of twice as many lines, reads each by `bench_listing`, and
prints the seconds of processor time, how many times as long twice as many lines take, and the time as a multiple of that
of a C loop which loads the file and counts its lines and words (bench/loop.c, built here by cc -O2). Of each command the least time
over the runs counts, and the greatest memory. The program is the one that `rt run` built in CRATES (here, where it is not given).

  plain     `create` with a short path
  escaped   `symlink` with escapes in both of its texts
  written   `write` of 16 bytes
  parts     `part` of a file of the host
  comments  comments and empty lines
"""
import os
import subprocess
import sys

from measuring import taken

HERE = os.path.dirname(os.path.abspath(__file__))
LINES = {
    "plain": b"create 644 /directory/file\n",
    "escaped": b"symlink /a\\x20b/c ../\\xff\\x00\n",
    "written": b"write /a 4096 000102030405060708090A0B0C0D0E0F\n",
    "parts": b"part /usr/lib/file 4294967295 build/usr/lib/file\n",
    "comments": b"# the next line is empty\n\n",
}


def least(words, folder, runs):
    """The least time and the greatest memory of some runs."""
    results = [taken(words, folder) for _ in range(runs)]
    return min(time for time, _ in results), max(memory for _, memory in results) / 1024


def main():
    folder = sys.argv[1]
    count = int(sys.argv[2]) if len(sys.argv) > 2 else 1_000_000
    runs = int(sys.argv[3]) if len(sys.argv) > 3 else 5
    crates = sys.argv[4] if len(sys.argv) > 4 else os.path.join(HERE, "../crates")
    os.makedirs(folder, exist_ok=True)
    loop = os.path.join(folder, "loop")
    subprocess.run(["cc", "-O2", "-o", loop, os.path.join(HERE, "loop.c")], check=True)
    print(f"{'listing':9} {'lines':>8} {'MB':>6} {'seconds':>8} {'n to 2n':>8} {'C loop':>7} {'beside':>7} {'MiB':>5}")
    for name, line in LINES.items():
        before = None
        for times in (1, 2):
            lines = count * times // line.count(b"\n")
            text = os.path.join(folder, f"{name}.listing")
            with open(text, "wb") as file:
                file.write(line * lines)
            time, memory = least([os.path.join(crates, "bench_listing/out/bench_listing"), text], folder, runs)
            base, _ = least([loop, "lines", text], folder, runs)
            size = os.path.getsize(text) / 1e6
            growth = f"{time / before:8.2f}" if before else " " * 8
            print(f"{name:9} {count * times:8} {size:6.0f} {time:8.3f} {growth} {base:7.3f} {time / base:7.1f} {memory:5.0f}")
            before = time
            os.remove(text)


if __name__ == "__main__":
    main()
