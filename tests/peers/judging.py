"""Runs the program and the tools of mtd-utils, and counts what was as it should be."""
import os
import re
import subprocess
import sys

import tree

PROGRAM = sys.argv[1]
COUNTS = [0, 0]
NODE = re.compile(rb"^ *(?:Obsolete )? *(?:Inode|Dirent) +node at ", re.M)
FAULT = re.compile(rb"^ *(?:Wrong|Unknown) .*", re.M)


def test(what, faults):
    """Counts a test, and tells its first faults."""
    COUNTS[1 if faults else 0] += 1
    for fault in faults[:8]:
        print(f"FAILED: {what}: {fault}"[:400], flush=True)


def ended():
    """Prints how many tests passed, and answers the status of the script."""
    print(f"{COUNTS[0]} passed, {COUNTS[1]} failed")
    return 1 if COUNTS[1] or not COUNTS[0] else 0


def run_groups(groups, *words):
    """Runs each group of tests with these words, prints what came of it and then of all, and answers the status of the script."""
    for group in groups:
        before = COUNTS[1]
        group(*words)
        print(f"{group.__name__}: {'fails' if COUNTS[1] > before else 'passes'}", flush=True)
    return ended()


def run(*words, place=None):
    done = subprocess.run([PROGRAM, *words], stdin=subprocess.DEVNULL, capture_output=True, timeout=600, cwd=place)
    return done.returncode, done.stdout, done.stderr.decode(errors="replace").strip()


def produce(image, folder, *words):
    """Makes an image. -m none: nothing is compressed."""
    subprocess.run(["mkfs.jffs2", "-m", "none", "-r", folder, "-o", image, *words], check=True, capture_output=True)


def check(what, words, image, status, verdict):
    got, out, errors = run("check", *words, image)
    last = out.decode().splitlines()[-1] if out else errors
    fine = got == status and last.startswith(verdict)
    test(f"{what}: check", [] if fine else [f"status {got}, wanted {status}: {last}"])


def compare(what, words, image, folder, squash=tree.Squash(), status=0, verdict="mount ok"):
    """Judges an image: its verdict, its tree and the bytes of its files."""
    check(what, words, image, status, verdict)
    wanted = tree.expected(folder, squash)
    got, out, errors = run("ls", *words, image)
    faults = tree.differences(tree.listed(out.decode()), wanted) if got == 0 and not errors else [f"status {got}: {errors}"]
    test(f"{what}: ls", faults)
    compare_files(what, words, image, folder)


def compare_files(what, words, image, folder):
    for path, _, names in sorted(os.walk(folder)):
        # Of the many small files of one folder some serve.
        for name in sorted(names)[:20]:
            file = os.path.join(path, name)
            if not os.path.isfile(file) or os.path.islink(file):
                continue
            shown = "".join("/" + tree.escaped(part) for part in os.path.relpath(file, folder).split(b"/"))
            with open(file, "rb") as source:
                bytes_wanted = source.read()
            got, out, errors = run("cat", *words, image, shown)
            fine = got == 0 and out == bytes_wanted and not errors
            test(f"{what}: cat {shown}", [] if fine else [f"status {got}, {len(out)} of {len(bytes_wanted)} bytes: {errors}"])


def filled(image, block):
    """A copy of the image, whose last block is filled with erased flash."""
    with open(image, "rb") as source, open(image + ".filled", "wb") as out:
        data = source.read()
        out.write(data + b"\xff" * (-len(data) % block))
    return image + ".filled"


def dumped(image, block, order):
    """What jffs2dump sees: how many entries and nodes of objects, and its lines of faults."""
    out = subprocess.run(["jffs2dump", "-c", "-l" if order == "little" else "-b", filled(image, block)], capture_output=True, check=True).stdout
    return len(NODE.findall(out)), [line.decode(errors="replace") for line in FAULT.findall(out)]
