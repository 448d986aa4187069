#!/usr/bin/env python3
"""How time grows on images that are made to do harm: python3 bench/hostile.py FOLDER [COUNT] [RUNS] [PROGRAM]

Makes images of COUNT (100000, where it is not given) and twice as many names, versions and so on (tests/hostile_images.py has
them), and runs the program on each. It prints the least processor time of each command over the runs, how many times longer the
greater image takes, the greatest memory over the size of the image, and, where valgrind is there, how many times the instructions.
The commands of a round run one after the other, so that other work on the machine meets them all. The last line has the
greatest of the ratios, which are to be 2.3 at most. The program is the one that `rt run` built here, where none is given.
"""
import os
import re
import shutil
import subprocess
import sys

HERE = os.path.dirname(os.path.abspath(__file__))
sys.path.insert(0, os.path.join(HERE, "../tests"))
import compressed_images as packed  # noqa: E402
import hostile_images as images  # noqa: E402
from measuring import measured  # noqa: E402

FOLDER = os.path.abspath(sys.argv[1])
COUNT = int(sys.argv[2]) if len(sys.argv) > 2 else 100000
RUNS = int(sys.argv[3]) if len(sys.argv) > 3 else 5
PROGRAM = os.path.abspath(sys.argv[4] if len(sys.argv) > 4 else os.path.join(HERE, "../crates/jffs2_image/out/jffs2_image"))
MOST = 2.3
# Each thing at COUNT over this number, and the commands that it is given to. A chain's listing is as long as all of its paths.
THINGS = (
    (images.names, 1, ("check", "ls", "append", "decompress")),
    (images.depths, 2, ("check", "cat", "append")),
    (images.circles, 2, ("check", "append")),
    (images.rising, 1, ("check", "cat")),
    (images.falling, 1, ("check", "cat")),
    (images.shuffled, 1, ("check", "cat")),
    (images.nested, 1, ("check", "cat")),
    (images.striped, 1, ("check", "cat")),
    (packed.many, 20, ("decompress", "ls --decompress")),
    (packed.bomb, 100, ("decompress",)),
)


def words_of(command, image, make, count):
    """The words of a command. `cat` of a chain goes down it, as far as a word of the command line reaches, and finds no file."""
    path = "/d" * min(count, 60000) if make is images.depths else "/a"
    return {
        "check": [PROGRAM, "check", image],
        "ls": [PROGRAM, "ls", image],
        "cat": [PROGRAM, "cat", image, path],
        "append": [PROGRAM, "append", "--blocks", "1024", image, "one.txt", "more.img"],
        "decompress": [PROGRAM, "decompress", image, "more.img"],
        "ls --decompress": [PROGRAM, "ls", "--decompress", image],
    }[command]


def made(make, count):
    """Writes an image, and returns its name and size."""
    name = os.path.join(FOLDER, f"{make.__name__}{count}.img")
    with open(name, "wb") as file:
        return name, file.write(make(count))


def instructions(words):
    """How many instructions a command takes, by valgrind."""
    count = ["valgrind", "--tool=cachegrind", "--cache-sim=no", "--cachegrind-out-file=/dev/null", *words]
    told = subprocess.run(count, cwd=FOLDER, stdout=subprocess.DEVNULL, stderr=subprocess.PIPE, text=True, check=False).stderr
    return int(re.search(r"I +refs: +([0-9,]+)", told)[1].replace(",", ""))


def compare(make, command, sizes, files):
    """Runs a command on two images in turn, prints what it took, and returns the ratios of time and of instructions."""
    words = [words_of(command, name, make, count) for count, (name, _) in zip(sizes, files)]
    runs = [[measured(one, FOLDER, FOLDER) for one in words] for _ in range(RUNS)]
    once, twice = (min(run[k][0] for run in runs) for k in (0, 1))
    memory = [max(run[k][1] for run in runs) / 1024 - files[k][1] / (1 << 20) for k in (0, 1)]
    counts = [instructions(one) for one in words] if shutil.which("valgrind") else [1, 0]
    time, work = twice / once, counts[1] / counts[0]
    print(
        f"{make.__name__:9} {command:7} {sizes[0]:7} {once:6.3f} s {memory[0]:4.0f} MiB  twice {twice:6.3f} s {memory[1]:4.0f} MiB"
        f" {time:5.2f} times, {work:5.2f} the instructions",
        flush=True,
    )
    return time, work


def main():
    os.makedirs(FOLDER, exist_ok=True)
    with open(os.path.join(FOLDER, "one.txt"), "w", encoding="utf-8") as listing:
        print("create 0644 /new", file=listing)
    ratios = []
    for make, part, commands in THINGS:
        sizes = (COUNT // part, 2 * COUNT // part)
        files = [made(make, count) for count in sizes]
        ratios += [compare(make, command, sizes, files) for command in commands]
    time, work = (max(ratio[k] for ratio in ratios) for k in (0, 1))
    print(f"the greatest ratios: {time:.2f} of time, {work:.2f} of instructions")
    return 0 if max(time, work) <= MOST else 1


if __name__ == "__main__":
    sys.exit(main())
