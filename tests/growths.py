#!/usr/bin/env python3
"""Refuses each growth in turn to every call that takes memory: tests/growths.py [--built DIR]

Runs each test of a module `growth`, and each that is named `refused_growth..`, as `rt test` built it here or `rt ci` in DIR, once
for each growth that it asks for, with that one refused (tests/refuse.c). The test passes whichever it is: it sees to it that the call answers out of memory by its own number
or what it answers anyway, that what stands after it is as the contract says, and that the same call then does what it did
not. The last line is 'N passed, M failed', one for each growth.
"""
import argparse
import glob
import os
import shutil
import subprocess
import sys
import tempfile

ROOT = os.path.dirname(os.path.dirname(os.path.abspath(__file__)))


def run(shim, number, words):
    """Runs a program with this growth refused, or with none for 0."""
    environment = {**os.environ, "LD_PRELOAD": shim, "REFUSE": str(number)}
    return subprocess.run(words, env=environment, capture_output=True, text=True, check=False)


def growths(shim, words):
    """How many growths a test asks for; it must pass where none is refused."""
    plain = run(shim, 0, words)
    return 0 if plain.returncode else int(plain.stderr.split()[-1])


def tests_of(binary):
    """The names of a crate's tests on growth."""
    listed = subprocess.run([binary, "--list"], capture_output=True, text=True, check=True).stdout
    names = [line.removesuffix(": test") for line in listed.split("\n") if line.endswith(": test")]
    return [name for name in names if is_of_growth(*name.split("::")[-2:])]


def is_of_growth(module, name):
    """Whether a test is one on growth, by its module or by its own name."""
    return module == "growth" or name.startswith("refused_growth")


def has_tests(folder):
    """Whether a crate has such a test."""
    for file in glob.glob(f"{folder}/src/**/*.rt", recursive=True):
        with open(file, encoding="utf-8") as source:
            if os.path.basename(file) == "growth.rt" or "fn refused_growth" in source.read():
                return True
    return False


def try_tests(shim, built):
    """Runs the tests on growth of all crates: how many growths passed, and how many failed."""
    passed, failed = 0, 0
    for folder in sorted(glob.glob(f"{ROOT}/crates/*_tests")):
        crate = os.path.basename(folder)
        if not has_tests(folder):
            continue
        binary = f"{built}/crates/{crate}/out/{crate}_tests"
        for name in tests_of(binary):
            count = growths(shim, [binary, name])
            bad = [number for number in range(1, count + 1) if run(shim, number, [binary, name]).returncode]
            print(f"{crate} {name}: {count} growths" + (f", not passed at {bad}" if bad else ""))
            passed += count - len(bad)
            failed += len(bad) or count == 0
    return passed, failed


def main():
    parser = argparse.ArgumentParser()
    parser.add_argument("--built", default=ROOT)
    built = parser.parse_args().built
    if not shutil.which("cc"):
        print("left out: cc is missing, which builds tests/refuse.c")
        print("0 passed, 0 failed")
        return 0
    with tempfile.TemporaryDirectory(prefix="growths-") as folder:
        shim = f"{folder}/refuse.so"
        words = ["cc", "-O1", "-shared", "-fPIC", "-fno-builtin", "-o", shim, f"{ROOT}/tests/refuse.c", "-ldl"]
        subprocess.run(words, check=True)
        passed, failed = try_tests(shim, built)
    print(f"{passed} passed, {failed} failed")
    return 1 if failed else 0


if __name__ == "__main__":
    sys.exit(main())
