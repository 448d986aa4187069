#!/usr/bin/env python3
"""Compares folders of this host with images by `verify` of the finished program.

Usage: tests/verify.py [PROGRAM]. A folder and the image that `pack` makes of it, in both orders, compressed or not, and the one
that mkfs.jffs2 made of the folder of tests/data: nothing is printed. Then one thing is changed in the folder at a time, and
exactly the lines on it are printed, as this script makes them of the folder itself. At last what is left out of a folder, and what
is refused. The last line is 'N passed, M failed'.
"""
import hashlib
import os
import random
import shutil
import socket
import stat
import subprocess
import sys

from groups import BLOCK, ORDERS, PROGRAM, ROOT, Done, options_of, read, run_all, verdict, write

TIME = 1000000000
IS_ROOT = os.geteuid() == 0
KINDS = {stat.S_IFDIR: "d", stat.S_IFREG: "-", stat.S_IFLNK: "l", stat.S_IFIFO: "p"}


def run(*words):
    done = subprocess.run([PROGRAM, *words], stdin=subprocess.DEVNULL, capture_output=True, check=False)
    return Done(done.returncode, done.stdout, done.stderr)


# ---- folders


def settle(top, time=TIME):
    """Sets the time of everything in a folder."""
    for folder, _, files in os.walk(top, topdown=False):
        for name in [*files, ""]:
            os.utime(os.path.join(folder, name), (time, time), follow_symlinks=False)


def make_tree(top):
    """A folder with a directory, files, a hard link, symlinks and a FIFO."""
    chance = random.Random(11)
    os.makedirs(f"{top}/etc/deep")
    os.makedirs(f"{top}/empty")
    for name, size in (("none", 0), ("one", 1), ("page", 4096), ("past", 4097), ("long", 20000)):
        write(f"{top}/etc/{name}", chance.randbytes(size))
    write(f"{top}/text", "one line, and again one line\n" * 900)
    write(f"{top}/a space", b"\x00" * 9000)
    os.link(f"{top}/etc/one", f"{top}/z-one")
    os.symlink("etc/one", f"{top}/way")
    os.symlink("/no such/place", f"{top}/dangling")
    os.mkfifo(f"{top}/fifo", 0o600)
    for path, mode in (("etc/none", 0o4755), ("etc/past", 0o444), ("empty", 0o1777), ("etc", 0o2750), ("", 0o711)):
        os.chmod(f"{top}/{path}", mode)
    settle(top)


def data_tree(top):
    """The folder of which tests/data/make.sh makes its images, without the device."""
    os.makedirs(f"{top}/etc/init.d")
    write(f"{top}/etc/log", "".join(f"{n}\n" for n in range(1, 3001)))
    write(f"{top}/etc/passwd", "root:x:0:0:root:/root:/bin/sh\n")
    write(f"{top}/etc/init.d/start", "#!/bin/sh\nexec true\n")
    write(f"{top}/short", "a" * 12)
    write(f"{top}/zeros", bytes(5000))
    write(f"{top}/noise", b"".join(hashlib.sha256(str(k).encode()).digest() for k in range(1, 33)))
    write(f"{top}/empty", b"")
    os.link(f"{top}/etc/log", f"{top}/log")
    os.symlink("etc/passwd", f"{top}/way")
    os.mkfifo(f"{top}/fifo", 0o600)
    for path in ("", "etc", "etc/init.d", "etc/init.d/start"):
        os.chmod(f"{top}/{path}", 0o755)
    for path in ("etc/log", "etc/passwd", "short", "zeros", "noise", "empty"):
        os.chmod(f"{top}/{path}", 0o644)
    settle(top)


# ---- lines


def escaped(text):
    return "".join(chr(b) if 0x21 <= b <= 0x7E and b not in b"\\/" else f"\\x{b:02x}" for b in os.fsencode(text))


def path_of(inside):
    return "".join("/" + escaped(name) for name in inside.split("/") if name) or "/"


def line_of(top, inside, times=False, owner=None):
    """The line of an object of a folder, as `diff` prints it after its sign."""
    path = f"{top}/{inside}" if inside else top
    is_ = os.lstat(path)
    kind = stat.S_IFMT(is_.st_mode)
    size = is_.st_size if kind in (stat.S_IFREG, stat.S_IFLNK) else 0
    fields = [KINDS[kind], f"{stat.S_IMODE(is_.st_mode):04o}", *(owner or (is_.st_uid, is_.st_gid)), size]
    fields += [int(is_.st_mtime)] if times else []
    target = f" -> {escaped(os.readlink(path))}" if kind == stat.S_IFLNK else ""
    return " ".join(map(str, fields)) + f" {path_of(inside)}{target}"


def lines(*of):
    return "".join(line + "\n" for line in of).encode()


# ---- runs


def verify(about, wanted, *words, err=b""):
    """A run of `verify` prints these lines and no others, and ends with the status that they make."""
    done = run("verify", *words)
    verdict(about, done == Done(3 if wanted or err else 0, wanted, err), done)


def packed_folders():
    """A folder is the image that is made of it."""
    make_tree("packed")
    for order in ORDERS:
        for size in (BLOCK, 65536):
            for more in ([], ["--compress"], ["--owner", "7", "8", "--time", "5"], ["--pad", "--blocks", "32"]):
                options = options_of(order, size)
                words = [it for it in more if it not in ("--compress", "--pad", "--blocks", "32")]
                done = run("pack", *options, *more, "packed", "packed.img")
                verdict(f"it is packed, {options} {more}", done.status == 0, done)
                for times in ([], ["--times"]):
                    verify(f"nothing differs, {options} {more} {times}", b"", *options, *words, *times, "packed.img", "packed")
                verify(f"quietly, {options} {more}", b"", *options, *words, "--quiet", "packed.img", "packed")
    before = read("packed.img")
    verdict("nothing is made", sorted(os.listdir(".")) == ["packed", "packed.img"])
    verdict("the image stays", read("packed.img") == before)


def made_by_mkfs():
    """The image of mkfs.jffs2 holds its folder. A device is made by root alone."""
    data_tree("data")
    device = []
    if IS_ROOT:
        os.mknod("data/null", 0o600 | stat.S_IFCHR, os.makedev(1, 3))
        settle("data")
    else:
        device = ["+ c 0600 0 0 0 /null"]
    image = f"{ROOT}/tests/data/default.img"
    words = ["--block", "8192", "--owner", "0", "0"]
    verify("mkfs.jffs2: nothing differs", lines(*device), *words, image, "data")
    if IS_ROOT:
        os.remove("data/null")
        os.mknod("data/null", 0o600 | stat.S_IFCHR, os.makedev(5, 1))
        settle("data")
        device = ["* /null device 5:1 to 1:3"]
        verify("mkfs.jffs2: another number", lines(*device), *words, image, "data")
    write("data/short", "aaaaaaaaaaab")
    verify("mkfs.jffs2: a byte", lines(*device, "* /short at 11"), *words, image, "data")


def change(about, make, wanted, *words):
    """One change of a folder, of which a copy was packed: these lines are printed, made before it and after it."""
    shutil.rmtree("one", ignore_errors=True)
    make_tree("one")
    done = run("pack", "--block", str(BLOCK), "one", "one.img")
    before = {inside: line_of("one", inside, "--times" in words) for inside in wanted if os.path.lexists(f"one/{inside}")}
    make()
    if make is not changed_time:
        settle("one")
    told = []
    for inside, place in wanted.items():
        after = line_of("one", inside, "--times" in words) if os.path.lexists(f"one/{inside}") else None
        if place is not None:
            told.append(f"* {path_of(inside)} at {place}")
        else:
            told += [f"- {after}"] if after else []
            told += [f"+ {before[inside]}"] if inside in before else []
    verdict(f"{about}: it is packed", done.status == 0, done)
    verify(about, lines(*told), "--block", str(BLOCK), *words, "one.img", "one")


def put_at(path, place, data):
    with open(path, "r+b") as file:
        file.seek(place)
        file.write(data)


def replaced_link():
    os.remove("one/way")
    os.symlink("etc/two", "one/way")


def replaced_kind():
    os.remove("one/text")
    os.mkdir("one/text", 0o755)
    os.chmod("one/text", 0o755)


def changed_time():
    os.utime("one/text", (TIME, TIME + 1))


def changed_folders():
    """One change at a time: exactly the lines on it."""
    write_byte = lambda: put_at("one/etc/long", 12345, bytes([read("one/etc/long")[12345] ^ 1]))
    change("a mode", lambda: os.chmod("one/text", 0o640), {"text": None})
    change("a directory's mode", lambda: os.chmod("one/empty", 0o755), {"empty": None})
    change("the root's mode", lambda: os.chmod("one", 0o755), {"": None})
    change("a byte", write_byte, {"etc/long": 12345})
    change("the first byte of zeros", lambda: put_at("one/a space", 0, b"x"), {"a space": 0})
    change("a byte of a file of two names", lambda: put_at("one/z-one", 0, bytes([read("one/z-one")[0] ^ 1])), {"etc/one": 0, "z-one": 0})
    change("a size", lambda: put_at("one/etc/past", 4097, b"x") if IS_ROOT else grown("one/etc/past"), {"etc/past": None})
    change("a size that falls", lambda: os.truncate("one/text", 100), {"text": None})
    change("a file that is added", lambda: write("one/new", b"new"), {"new": None})
    change("a directory that is added", lambda: os.mkdir("one/etc/new"), {"etc/new": None})
    change("a name that is added", lambda: os.link("one/text", "one/text2"), {"text2": None})
    change("a file that is removed", lambda: os.remove("one/text"), {"text": None})
    change("a directory that is removed", lambda: os.rmdir("one/empty"), {"empty": None})
    change("a name that is removed", lambda: os.remove("one/z-one"), {"z-one": None})
    change("a target", replaced_link, {"way": None})
    change("a FIFO that is removed", lambda: os.remove("one/fifo"), {"fifo": None})
    change("a kind", replaced_kind, {"text": None})
    change("a time", changed_time, {"text": None}, "--times")
    change("a time that is not compared", changed_time, {}, "--quiet")
    if IS_ROOT:
        change("an owner", lambda: os.chown("one/text", 5, 6), {"text": None})


def grown(path):
    os.chmod(path, 0o644)
    put_at(path, 4097, b"x")
    os.chmod(path, 0o444)


def left_out():
    """A socket's path is too long for no image, but a name of 255 bytes is: it is told, and the status is 3."""
    make_tree("left")
    name = "n" * 255
    write(f"left/{name}", b"")
    settle("left")
    packed = run("pack", "left", "left.img")
    verdict("it is packed, but for a name", packed.status == 3 and b"left out" in packed.err, packed)
    verify("what is left out is told", b"", "left.img", "left", err=packed.err)
    with socket.socket(socket.AF_UNIX) as heard:
        heard.bind("left/socket")
    settle("left")
    packed = run("pack", "left", "left.img")
    verify("a socket is held", b"", "left.img", "left", err=packed.err)


def refused():
    """What is refused, and an image with findings."""
    make_tree("kept")
    done = run("pack", "--block", str(BLOCK), "kept", "kept.img")
    verdict("it is packed", done.status == 0, done)
    options = ["--block", str(BLOCK)]
    done = run("verify", *options, "kept.img", "no")
    verdict("a folder that is not there", done.status == 1 and done.out == b"" and b"no" in done.err, done)
    done = run("verify", *options, "no.img", "kept")
    verdict("an image that is not there", done.status == 1 and done.out == b"" and b"no.img" in done.err, done)
    done = run("verify", *options, "kept.img", "kept.img")
    verdict("a folder that is a file", done.status == 1 and done.out == b"", done)
    done = run("verify", "--block", str(BLOCK), "--endian", "big", "kept.img", "kept")
    verdict("an image of the other order", done.status == 1 and done.out == b"" and b"I1 NoNodes" in done.err, done)
    write("noise.img", random.Random(3).randbytes(3 * BLOCK))
    done = run("verify", *options, "noise.img", "kept")
    verdict("an image that is none", done.status == 1 and done.out == b"", done)
    done = run("verify", "--block", "8190", "kept.img", "kept")
    verdict("a size that no block has", done.status in (1, 2) and done.out == b"", done)
    write("found.img", read("kept.img") + b"\xff" * (-len(read("kept.img")) % BLOCK) + b"\x00" * 4)
    done = run("verify", *options, "found.img", "kept")
    verdict("an image with a finding", done.status == 3 and done.out == b"" and b"finding" in done.err, done)
    for words in (["kept.img"], [], ["kept.img", "kept", "kept"], ["--owner", "1", "kept.img"], ["--blocks", "3", "kept.img", "kept"]):
        done = run("verify", *words)
        verdict(f"the words {words}", done.status == 2 and done.out == b"", done)


GROUPS = (packed_folders, made_by_mkfs, changed_folders, left_out, refused)


def main():
    os.umask(0o022)
    return run_all(GROUPS)


if __name__ == "__main__":
    sys.exit(main())
