#!/usr/bin/env python3
"""Compares `check --scan` with other readers of the same images: python3 bench/compare.py FOLDER [RUNS]

The images are those of bench/images.py, the programs those that `rt run` built, jffs2dump that of mtd-utils. Of each
command the least processor time over the runs counts, and the greatest memory, as /usr/bin/time tells it.
"""
import os
import subprocess
import sys

CRATES = os.path.join(os.path.dirname(os.path.abspath(__file__)), "..", "crates")
READERS = {
    "check --scan": [os.path.join(CRATES, "jffs2_image/out/jffs2_image"), "check", "--scan"],
    "bare checksum": [os.path.join(CRATES, "bench_crc/out/bench_crc")],
    "jffs2dump -c": ["jffs2dump", "-c"],
    "cat": ["cat"],
}


def measured(words, folder):
    """Runs a command, and answers its seconds of processor time and its memory in KiB."""
    told = os.path.join(folder, "memory")
    with open(os.path.join(folder, "out"), "wb") as out:
        child = subprocess.Popen(["/usr/bin/time", "-o", told, "-f", "%M", *words], stdout=out, stderr=subprocess.DEVNULL)
        used = os.wait4(child.pid, 0)[2]
    with open(told) as file:
        return used.ru_utime + used.ru_stime, int(file.read().split()[-1])


def main():
    folder, runs = sys.argv[1], int(sys.argv[2]) if len(sys.argv) > 2 else 5
    for image in ("data.img", "entries.img", "erased.img"):
        scan = None
        for name, words in READERS.items():
            tries = [measured([*words, os.path.join(folder, image)], folder) for _ in range(runs)]
            seconds, memory = min(tries)[0], max(memory for _, memory in tries)
            scan = scan or seconds
            print(f"{image:12} {name:14} {seconds:7.3f} s {seconds / scan:6.2f} times {memory:7} KiB", flush=True)


main()
