#!/usr/bin/env python3
"""Boots Linux to mount what `build --compress` and `pack --compress` make of a folder, and compares what it shows with the folder: see
packed.sh."""
import os
import re
import subprocess
import sys

import compact
import decompress
import linux
from judging import dumped, ended, run, test

FLASH = ["--block", "65536", "--blocks", "128"]
LINE = re.compile(rb"accepted (\d+) nodes (\d+) bytes (\d+)\n")


def folder_in(place):
    """The folder of the other comparisons, with files that can be compressed; without a socket, which the guest's tar has not."""
    folder = os.path.join(place, "folder").encode()
    os.mkdir(folder)
    decompress.make(folder)
    os.remove(os.path.join(folder, b"kinds/s"))
    for path, _, _ in os.walk(folder):
        os.utime(path, (1234567890, 1234567890))
    return folder


def made(what, command, order, given, place):
    """An image by `build --compress` of the listing, or by `pack --compress` of the folder, and how many nodes it has."""
    image = os.path.join(given, f"squeezed-{command}-{order}.img")
    source = ["listing"] if command == "build" else ["--quiet", "folder"]
    status, told, errors = run(command, "--compress", *FLASH, "--endian", order, *source, image, place=place)
    line = LINE.fullmatch(told)
    # the folder has names that are no text, and a name that is too long: they are left out
    fine = line and (status == 0 or status == 3 and "left out" in errors)
    print(f"{what}: {told.decode().strip()}, status {status}")
    test(f"{what}: {command}", [] if fine else [f"status {status}: {told} {errors[:300]}"])
    return image if line else None, int(line[2]) if line else 0


def judged(what, image, order, nodes, plain):
    """jffs2dump counts these nodes and finds no fault, `check` neither, and it is shorter than the image without --compress."""
    seen, faults = dumped(image, 65536, order)
    os.remove(image + ".filled")
    test(f"{what}: jffs2dump", faults + ([] if seen == nodes else [f"{seen} nodes, wanted {nodes}"]))
    status, out, errors = run("check", "--decompress", *FLASH[:2], "--endian", order, image)
    test(f"{what}: check", [] if status == 0 and out.endswith(b"\nmount ok\n") and not errors else [f"status {status}: {out[-100:]} {errors}"])
    shorter = os.path.getsize(image) < os.path.getsize(plain)
    print(f"{what}: {os.path.getsize(image)} bytes, without --compress {os.path.getsize(plain)}")
    test(f"{what}: shorter", [] if shorter else ["it is not"])


def turned(image):
    """A big image as a little one, in its place; what `ls` shows is the same."""
    subprocess.run(["jffs2dump", "-b", "-r", "-e", image + ".little", image], check=True, capture_output=True)
    first = run("ls", "--decompress", *FLASH[:2], "--endian", "big", image)
    os.replace(image + ".little", image)
    test(f"{image}: turned", [] if run("ls", "--decompress", *FLASH[:2], image)[:2] == first[:2] else ["another list"])


def inputs(place, given):
    """The images for Linux, and the folders that they were made of, by their names."""
    folder = folder_in(place)
    with open(os.path.join(place, "listing"), "wb") as file:
        file.write(run("listing", "--quiet", "folder", place=place)[1])
    sources = {}
    for order in ("little", "big"):
        plain = os.path.join(place, f"plain-{order}.img")
        run("build", *FLASH, "--endian", order, "listing", plain, place=place)
        same = {}
        for command in ("build", "pack"):
            what = f"squeezed-{command}-{order}"
            image, nodes = made(what, command, order, given, place)
            if not image:
                continue
            judged(what, image, order, nodes, plain)
            with open(image, "rb") as file:
                same[command] = file.read()
            if order == "big":
                turned(image)
            sources[what] = folder
        test(f"{order}: both make the same image", [] if same.get("build") == same.get("pack") else ["they do not"])
    return sources


def main():
    place = sys.argv[3]
    given, got = (os.path.join(place, "1", part) for part in ("given", "got"))
    compact.inputs(given, None)
    sources = inputs(place, given)
    linux.boot(os.path.dirname(given), given, got)
    linux.judge(given, got, sources, [what for what in sources if what.endswith("-big")])
    print(f"{len(sources)} images")
    return ended()


if __name__ == "__main__":
    sys.exit(main())
