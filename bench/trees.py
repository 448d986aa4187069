#!/usr/bin/env python3
"""Makes images of folders for the benchmarks: python3 bench/trees.py FOLDER

  tree.img   64 MiB: 16,000 files of about 4 KiB in the folders of a root file system
  large.img  64 MiB: a file of 58 MiB, /usr/lib/large, and one of 4 MiB, /usr/lib/small

By mkfs.jffs2 of mtd-utils, without compression, little order, erase blocks of 65,536 bytes; ends with status 77 where
that is missing.
"""
import os
import random
import shutil
import subprocess
import sys
import tempfile

FOLDERS = ["bin", "etc/init.d", "etc/config", "lib/modules/5.15.0/kernel/drivers/net", "lib/firmware", "sbin", "usr/bin", "usr/lib",
           "usr/lib/lua", "usr/sbin", "usr/share/locale/de/LC_MESSAGES", "usr/share/zoneinfo/Europe", "var/lib/opkg/info", "www/luci-static"]
WORDS = ["lib", "net", "crypto", "busybox", "config", "init", "module", "ssl", "route", "zone", "tool", "proto", "wifi", "usb"]
ENDS = ["", ".so.1", ".ko", ".conf", ".lua", ".mo", ".control", ".list", ".sh", ".html"]


def write(root, path, data):
    with open(os.path.join(root, path), "wb") as file:
        file.write(data)


def make_tree(root):
    chance = random.Random(1)
    page = chance.randbytes(1 << 20)
    for folder in FOLDERS:
        os.makedirs(os.path.join(root, folder))
    for i in range(16000):
        name = chance.choice(WORDS) + chance.choice(["-", "_", ""]) + chance.choice(WORDS) + str(i) + chance.choice(ENDS)
        size, at = chance.randrange(3744, 4097), chance.randrange(1 << 19)
        write(root, os.path.join(FOLDERS[i % len(FOLDERS)], name), page[at : at + size])


def make_large(root):
    os.makedirs(os.path.join(root, "usr/lib"))
    write(root, "usr/lib/large", random.Random(2).randbytes(58 << 20))
    write(root, "usr/lib/small", random.Random(3).randbytes(4 << 20))


def main():
    if not shutil.which("mkfs.jffs2"):
        print("mkfs.jffs2 is missing: apt-get install mtd-utils", file=sys.stderr)
        return 77
    os.makedirs(sys.argv[1], exist_ok=True)
    for name, make in (("tree.img", make_tree), ("large.img", make_large)):
        with tempfile.TemporaryDirectory() as root:
            # jffs2reader does not see the first entry that mkfs.jffs2 writes, so a file comes before what counts.
            write(root, ".first", b"")
            make(root)
            image = os.path.join(sys.argv[1], name)
            subprocess.run(["mkfs.jffs2", "-m", "none", "-l", "-p" + str(64 << 20), "-r", root, "-o", image], check=True)
            print(image, os.path.getsize(image))
    return 0


sys.exit(main())
