#!/usr/bin/env python3
"""Compares images made by mkfs.jffs2, and those of writing.py, with the folder: see run.sh, which starts it."""
import itertools
import os
import subprocess
import sys
import tempfile

import folders
import tree
import writing
from judging import check, compare, ended, produce, run, test
from listing import Parts, plain

def usual(folder, image):
    """Both orders, four sizes of blocks, padded or not, with clean markers or without."""
    for order, size, pad, marks in itertools.product(("little", "big"), (8, 16, 64, 128), ((), ("-p",)), ((), ("-n",))):
        options = ["-l" if order == "little" else "-b", "-e", f"{size}KiB", *pad, *marks]
        produce(image, folder, *options)
        compare(" ".join(options), ["--block", str(size * 1024), "--endian", order], image, folder)


def unusual(folder, image):
    """Other options that leave the tree as it is, or change it in a way that is told."""
    for options, block in (
        (["-s", "512"], 65536), (["-s", "65536"], 65536), (["-c", "20"], 65536), (["--pad=2000000"], 65536),
        (["-e", "4096"], 8192), (["-e", "10000"], 10000), (["-e", "4MiB"], 4194304), (["-e", "8KiB"], 65536), (["-e", "8MiB"], 4194304),
    ):
        produce(image, folder, "-l", *options)
        compare(" ".join(options), ["--block", str(block)], image, folder)
    for options, squash in (
        (["-f"], tree.Squash(times=True)), (["-U"], tree.Squash(owners=True)), (["-P"], tree.Squash(permissions=True)),
        (["-q"], tree.Squash(owners=True, permissions=True)),
    ):
        produce(image, folder, "-l", *options)
        compare(" ".join(options), [], image, folder, squash)


def table(folder, image):
    """Devices, owners and modes by a device table, which needs no rights."""
    devices = image + ".table"
    with open(devices, "w") as file:
        file.write("/kinds/tty c 620 5 6 4 64 0 0 -\n/kinds/ram b 600 0 7 1 0 0 1 3\n/made d 1770 8 9 - - - - -\n/third f 4711 10 11 - - - - -\n")
    produce(image, folder, "-l", "-D", devices)
    check("-D", [], image, 0, "mount ok")
    lines = [(words[0].rsplit(" ", 2)[0], words[1]) for words, _ in tree.listed(run("ls", image)[1].decode())]
    for line in (("c 0620 5 6", "/kinds/tty"), ("b 0600 0 7", "/kinds/ram0"), ("b 0600 0 7", "/kinds/ram2"), ("d 1770 8 9", "/made"),
                 ("- 4711 10 11", "/third"), ("- 4711 10 11", "/links/first")):
        test("-D: " + line[1], [] if line in lines else ["no line %s .. %s" % line])


def strange(folder, image):
    """What does not mount, or has findings, and why: README.md."""
    for options in ([], ["-x", "zlib"], ["-x", "zlib", "-X", "lzo"]):
        subprocess.run(["mkfs.jffs2", "-l", "-r", folder, "-o", image, *options], check=True)
        what = "compressed " + " ".join(options)
        check(what, [], image, 3, "mount refused M4 Compressed at ")
        for words in (["ls", image], ["cat", image, "/third"], ["append", "--blocks", "64", image, "/dev/null", image + ".more"]):
            status, out, errors = run(*words)
            fine = status == 1 and not out and errors.startswith("jffs2_image: M4 Compressed at ") and not os.path.exists(image + ".more")
            test(what, [] if fine else [f"{words[0]}: status {status}: {errors}"])
    produce(image, folder, "-l")
    check("the other order", ["--endian", "big"], image, 3, "mount ok")
    test("the other order: ls", [] if run("ls", "--endian", "big", image)[1] == b"d 0755 0 0 0 0 1 /\n" else ["more than a root"])
    check("half of the block", ["--block", "32768"], image, 3, "mount ok")
    for block in (4095, 8388608):
        status, _, errors = run("ls", "--block", str(block), image)
        test(f"--block {block}", [] if status == 1 and errors.startswith("jffs2_image: M1 BlockSize\n") else [f"status {status}: {errors}"])
    subprocess.run(["sumtool", "-l", "-i", image, "-o", image + ".sums"], check=True, capture_output=True)
    compare("sumtool", [], image + ".sums", folder)
    produce(image + ".more", folder, "-l", "-i", image)
    with open(image, "ab") as out, open(image + ".more", "rb") as more:
        out.write(b"\xff" * (-out.tell() % 65536) + more.read())
    check("-i", [], image, 3, "mount refused M5 Clash at ")
    try:
        os.setxattr(os.path.join(folder, b"third"), "user.note", b"text")
    except OSError:
        return print("no extended attributes here: --with-xattr is left out")
    produce(image, folder, "-l", "--with-xattr")
    compare("--with-xattr", [], image, folder, status=3)


def main():
    with tempfile.TemporaryDirectory() as place:
        folder, image = os.path.join(place, "folder").encode(), os.path.join(place, "image")
        os.mkdir(folder)
        tree.make(folder)
        sayable, changed = writing.copied(folder, b"sayable"), writing.copied(folder, b"changed")
        plain(sayable)
        for part in (usual, unusual, table, strange):
            part(folder, image)
        parts = Parts(place)
        writing.build(sayable, place, parts)
        writing.append(folder, changed, sayable, place, parts)
        folders.there_and_back(folder, place)
        folders.of_another_producer(folder, place)
    return ended()


sys.exit(main())
