"""Tests of the finished program in groups: which program it is, what came of a run of it, and how many tests passed."""
import collections
import os
import subprocess
import sys
import tempfile

ROOT = os.path.dirname(os.path.dirname(os.path.abspath(__file__)))
PROGRAM = os.path.realpath(sys.argv[1] if len(sys.argv) > 1 else f"{ROOT}/crates/jffs2_image/out/jffs2_image")
BLOCK = 8192
ORDERS = {"<": "little", ">": "big"}
counts = collections.Counter()
Done = collections.namedtuple("Done", "status out err")


def verdict(about, right, done=None):
    """Counts one test, and tells of it where it failed."""
    counts["passed" if right else "failed"] += 1
    if not right:
        told = f": status {done.status}, {done.out[:300]!r}, {done.err[:300]!r}" if done else ""
        print(f"FAILED: {about}{told}", flush=True)


def run(*words):
    """Runs the program, and answers its status and what it wrote to both outputs."""
    done = subprocess.run([PROGRAM, *words], stdin=subprocess.DEVNULL, capture_output=True, check=False)
    return done.returncode, done.stdout.decode(), done.stderr.decode()


def options_of(order, size=BLOCK):
    """The options for a byte order and a block size."""
    return ["--block", str(size), "--endian", ORDERS[order]]


def read(name):
    with open(name, "rb") as file:
        return file.read()


def write(name, data):
    with open(name, "wb") as file:
        file.write(data if isinstance(data, bytes) else data.encode())


def write_lines(name, lines):
    write(name, "".join(line + "\n" for line in lines))


def two_images(content):
    """`folder`, which has a file of these bytes; `packed`, the image of this folder; and `made`, another image."""
    os.makedirs("folder/x", exist_ok=True)
    write("folder/x/file", content)
    write_lines("first", ["mkdir 0755 /x"])
    made = [run("pack", "folder", "packed"), run("build", "--blocks", "8", "first", "made")]
    assert [status for status, _, _ in made] == [0, 0], made


def run_all(groups):
    """Runs each group in one new folder, tells of it and then of all, and answers the status of the suite."""
    with tempfile.TemporaryDirectory(prefix="groups-") as folder:
        os.chdir(folder)
        for group in groups:
            before = counts["failed"]
            group()
            print(f"{group.__name__}: {'fails' if counts['failed'] > before else 'passes'}", flush=True)
        os.chdir(ROOT)
    print(f"{counts['passed']} passed, {counts['failed']} failed")
    return 1 if counts["failed"] or not counts["passed"] else 0
