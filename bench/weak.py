#!/usr/bin/env python3
"""What the least weak cut of a node costs: python3 bench/weak.py [COUNT] [RUNS] [CRATES]

Runs `bench_weak` COUNT times (50000, where it is not given) over nodes of 4,164 bytes, and prints the microseconds of
processor time a node, and the time as a multiple of that of the checksum of the node: of `cut`, its least weak cut, and of
`worst`, the same where only the checksum of the data shows a cut in the node_crc. Of each the least time over the runs
counts. The program is the one that `rt run` built in CRATES (here, where it is not given).
"""
import os
import subprocess
import sys

HERE = os.path.dirname(os.path.abspath(__file__))


def seconds(program, what, count):
    """Runs the program once, and returns its seconds of processor time."""
    child = subprocess.Popen([program, what, str(count)], stdout=subprocess.DEVNULL)
    _, status, used = os.wait4(child.pid, 0)
    if status != 0:
        sys.exit(f"bench_weak {what} failed")
    return used.ru_utime + used.ru_stime


def main():
    count = int(sys.argv[1]) if len(sys.argv) > 1 else 50000
    runs = int(sys.argv[2]) if len(sys.argv) > 2 else 5
    crates = sys.argv[3] if len(sys.argv) > 3 else os.path.join(HERE, "../crates")
    program = os.path.join(crates, "bench_weak/out/bench_weak")
    times = [{what: seconds(program, what, count) for what in ("crc", "cut", "worst")} for _ in range(runs)]
    least = {what: min(run[what] for run in times) for what in times[0]}
    for what, took in least.items():
        print(f"{what:6} {took / count * 1e6:7.2f} us a node {took / least['crc']:6.1f} times", flush=True)


if __name__ == "__main__":
    main()
