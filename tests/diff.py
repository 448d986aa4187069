#!/usr/bin/env python3
"""Compares images by `diff` of the finished program, and their extracted folders by a plain comparison of this host.

Usage: tests/diff.py [PROGRAM]. Pairs of images of random listings, in both orders and several block sizes: the lines, with and
without times, are those that the comparison of the two folders makes, and `diff A A` prints nothing. Pairs of devices of several
numbers. The last line is 'N passed, M failed'.
"""
import copy
import os
import random
import shutil
import stat
import subprocess
import sys

from groups import PROGRAM, Done, run_all, verdict, write

NAMES = ("a", "b", "a.b", "a b", "d", "d-", "d.x", "é", "back\\slash", "n" * 200, "~", "A")
KINDS = {stat.S_IFDIR: "d", stat.S_IFREG: "-", stat.S_IFLNK: "l"}
IS_ROOT = os.geteuid() == 0
OWNER = (os.geteuid() & 0xFFFF, os.getegid() & 0xFFFF)


def run(*words):
    done = subprocess.run([PROGRAM, *words], stdin=subprocess.DEVNULL, capture_output=True, check=False)
    return Done(done.returncode, done.stdout, done.stderr)


# ---- listings


def word(text):
    """A path or a target as a word of a listing."""
    plain = text.encode() if isinstance(text, str) else text
    return "".join(chr(b) if 0x21 <= b <= 0x7E and b != 0x5C else f"\\x{b:02x}" for b in plain)


class Tree:
    """The paths that operations made, so that most of the next ones are accepted."""

    def __init__(self, chance):
        self.chance, self.folders, self.files, self.links, self.lines = chance, [""], [], [], []

    def new_path(self):
        return f"{self.chance.choice(self.folders)}/{self.chance.choice(NAMES)}"

    def is_free(self, path):
        return path not in self.folders and path not in self.files and path not in self.links

    def data(self):
        return self.chance.randbytes(self.chance.choice((0, 1, 3, 40))).hex() or "-"

    def add(self, line):
        self.lines.append(line)

    def make(self, path):
        kind = self.chance.choice("ddfffl")
        mode = self.chance.choice(("0755", "0700", "0644", "0600"))
        if kind == "d":
            self.add(f"mkdir {'0755' if not IS_ROOT else mode} {word(path)}")
            self.folders.append(path)
        elif kind == "f":
            self.add(f"create {mode} {word(path)}")
            self.files.append(path)
        else:
            self.add(f"symlink {word(path)} {word(self.chance.choice(('x', 'y', '/a/b', 'a b')))}")
            self.links.append(path)

    def change(self, path):
        """An operation on a file that is there."""
        kind = self.chance.choice(("write", "write", "truncate", "remove", "link", "rename", "attr"))
        if kind == "write":
            self.add(f"write {word(path)} {self.chance.choice((0, 1, 4095, 4096, 9000))} {self.data()}")
        elif kind == "truncate":
            self.add(f"truncate {word(path)} {self.chance.choice((0, 1, 5, 5000))}")
        elif kind == "remove":
            self.add(f"remove {word(path)}")
            self.files.remove(path)
        elif kind == "attr":
            mode, time = self.chance.choice(("0644", "0600")), self.chance.choice((1, 7, 1000000000))
            uid, gid = self.owner()
            self.add(f"attr {mode} {uid} {gid} {time} {time} {word(path)}")
        else:
            other = self.new_path()
            if self.is_free(other):
                self.add(f"{kind} {word(path)} {word(other)}")
                self.files.append(other)
                if kind == "rename":
                    self.files.remove(path)

    def owner(self):
        return (self.chance.choice((0, 1, 1000)), self.chance.choice((0, 5, 100))) if IS_ROOT else OWNER

    def step(self):
        if self.chance.random() < 0.2:
            self.add(f"time {self.chance.choice((0, 1, 1000000000, 1700000000))}")
        if self.chance.random() < 0.1:
            self.add("owner {} {}".format(*self.owner()))
        path = self.new_path()
        if self.is_free(path) and (not self.files or self.chance.random() < 0.5):
            self.make(path)
        elif self.files:
            self.change(self.chance.choice(self.files))


def listings(seed):
    """Two listings with a beginning in common, of which the second goes on otherwise, or goes on after the first."""
    chance = random.Random(f"diff {seed}")
    tree = Tree(chance)
    if not IS_ROOT:
        tree.add("owner {} {}".format(*OWNER))
    tree.add(f"attr 0755 {tree.owner()[0]} {tree.owner()[1]} 9 9 /")
    for _ in range(chance.randrange(25)):
        tree.step()
    other = copy.deepcopy(tree)
    for _ in range(chance.randrange(15)):
        tree.step()
    first = list(tree.lines)
    if chance.random() < 0.5:
        tree = other
        tree.chance = chance
    for _ in range(1 + chance.randrange(15)):
        tree.step()
    return first, tree.lines


# ---- the plain comparison


def escaped(text):
    return "".join(chr(b) if 0x21 <= b <= 0x7E and b not in b"\\/" else f"\\x{b:02x}" for b in text)


def path_of(names):
    return "".join("/" + escaped(name) for name in names) or "/"


def times_of_links(image, options):
    """The time of change of each symlink by `ls`, since `extract` leaves those of symlinks to the host."""
    lines = [line.split(" ") for line in run("ls", *options, image).out.decode().splitlines()]
    return {fields[7]: int(fields[5]) for fields in lines if fields[0] == "l"}


def seen(top, times):
    """What a folder has: of each path, as the names on it, the status, the bytes or the target, and the time of change."""
    found = {}

    def visit(path, names):
        is_ = os.lstat(path)
        kind = stat.S_IFMT(is_.st_mode)
        content = b""
        if kind == stat.S_IFLNK:
            content = os.readlink(path)
        elif kind == stat.S_IFREG:
            with open(path, "rb") as file:
                content = file.read()
        found[names] = (is_, content, times.get(path_of(names), int(is_.st_mtime)))
        if kind == stat.S_IFDIR:
            for name in os.listdir(path):
                visit(os.path.join(path, name), (*names, name))

    visit(os.fsencode(top), ())
    return found


def shown(names, is_, content, time, times):
    """What a line has after its sign: kind, permissions, owner, group, size, time, path and target."""
    kind = stat.S_IFMT(is_.st_mode)
    fields = [KINDS[kind], f"{stat.S_IMODE(is_.st_mode):04o}", is_.st_uid, is_.st_gid, len(content)]
    fields += [time] if times else []
    target = f" -> {escaped(content)}" if kind == stat.S_IFLNK else ""
    return " ".join(map(str, fields)) + f" {path_of(names)}{target}"


def compared(first, second, times):
    """The lines on two folders, and whether they are the same."""
    lines = []
    for names in sorted({*first, *second}):
        left = shown(names, *first[names], times) if names in first else None
        right = shown(names, *second[names], times) if names in second else None
        if left != right:
            lines += [f"{sign} {line}" for sign, line in (("-", left), ("+", right)) if line is not None]
        elif first[names][1] != second[names][1]:
            ours, theirs = first[names][1], second[names][1]
            at = next(k for k in range(len(ours)) if ours[k] != theirs[k])
            lines.append(f"* {path_of(names)} at {at}")
    return "".join(line + "\n" for line in lines).encode()


# ---- runs


def built(name, listing, options):
    """An image of a listing up to the first operation that is refused, and its folder."""
    write(f"{name}.txt", "".join(line + "\n" for line in listing).encode())
    made = run("build", "--blocks", "64", *options, f"{name}.txt", f"{name}.img")
    shutil.rmtree(name, ignore_errors=True)
    taken = run("extract", *(["--owners"] if IS_ROOT else []), *options, f"{name}.img", name)
    if made.status not in (0, 1) or taken.status != 0:
        raise AssertionError((made, taken, listing))
    return seen(name, times_of_links(f"{name}.img", options))


def random_listings():
    for seed in range(COUNT):
        options = ["--block", str((8192, 65536)[seed % 2]), "--endian", ("little", "big")[seed // 2 % 2]]
        first, second = listings(seed)
        left, right = built("one", first, options), built("two", second, options)
        for times in (False, True):
            words = [*(["--times"] if times else []), *options]
            for a, b, wanted in (
                ("one", "two", compared(left, right, times)),
                ("two", "one", compared(right, left, times)),
                ("one", "one", b""),
            ):
                done = run("diff", *words, f"{a}.img", f"{b}.img")
                is_right = done == Done(3 if wanted else 0, wanted, b"")
                verdict(f"diff {' '.join(words)} {a} {b} of seed {seed}", is_right, done)


NUMBERS = ((1, 3), (1, 5), (3, 1), (255, 255), (255, 256), (256, 0), (0, 256), (4095, 1048575), (259, 65537))


def numbers_of_devices():
    """Each pair of devices of these numbers, of one kind and of two, and with another mode."""
    for order in ("little", "big"):
        options = ["--endian", order]
        for kind, mode, major, minor in [(kind, mode, *number) for kind in "cb" for mode in ("0600", "0640") for number in NUMBERS]:
            name = f"{kind}{mode}.{major}.{minor}.img"
            write("one.txt", f"owner 1 2\ndevice {kind} {mode} {major} {minor} /a\\x20b\n".encode())
            made = run("build", "--blocks", "2", *options, "one.txt", name)
            if made.status != 0:
                raise AssertionError(made)
        for left in NUMBERS:
            for right in NUMBERS:
                for ours, theirs in (("c0600", "c0600"), ("b0600", "b0640"), ("c0640", "b0640")):
                    lines = []
                    if ours != theirs:
                        lines += [f"{sign} {of[0]} {of[1:]} 1 2 0 /a\\x20b" for sign, of in (("-", ours), ("+", theirs))]
                    if left != right:
                        lines.append(f"* /a\\x20b device {left[0]}:{left[1]} to {right[0]}:{right[1]}")
                    wanted = "".join(line + "\n" for line in lines).encode()
                    images = [f"{of}.{number[0]}.{number[1]}.img" for of, number in ((ours, left), (theirs, right))]
                    done = run("diff", *options, *images)
                    verdict(f"numbers {order} {images}", done == Done(3 if wanted else 0, wanted, b""), done)


COUNT = int(os.environ.get("DIFF_SEEDS", "100"))
GROUPS = (random_listings, numbers_of_devices)


def main():
    os.umask(0o022)
    return run_all(GROUPS)


if __name__ == "__main__":
    sys.exit(main())
