#!/usr/bin/env python3
"""Runs `extract --deleted` on random images, on those of other makers and on those of the program itself, against a model.

Usage: tests/deleted.py [PROGRAM]. Of each image the regular files that no path leads to and that are not empty, by the model here:
each is in the new folder with its bytes, permissions and time, under its number and the last name that an entry gave it, and nothing
else is there; a name that no file has is told. Entries and inode nodes, compressed or not, with twins, deletions, hard links, rings,
damage and dead nodes, in both orders; names of all lengths, cut at a character; files that the program itself removed, replaced and
compressed, and images of mkfs.jffs2 of which names were removed; and what refuses an image. The last line is 'N passed, M failed'.
"""
import os
import random
import shutil
import stat
import subprocess
import sys

import compact
import compact_model
import compressed_images as images
import decompress_model
import hostile_model
from groups import BLOCK, PROGRAM, Done, options_of, read, run_all, verdict, write, write_lines

GREATEST_NAME = 254
SPARSE = 1 << 20


def run(*words):
    done = subprocess.run([PROGRAM, *words], stdin=subprocess.DEVNULL, capture_output=True, check=False)
    return Done(done.returncode, done.stdout, done.stderr)


# ---- the model

def is_inner(byte):
    """Whether a byte is of a character of UTF-8, but not its first."""
    return 0x80 <= byte <= 0xBF


def cut(name, most):
    """As much of a name as fits, up to the end of a character."""
    if len(name) <= most:
        return name
    return name[: max((k for k in range(1, most + 1) if not is_inner(name[k])), default=0)]


def shown_name(nodes, ino):
    """The name of a file: the number, and what the entry of highest address said that gave it a name."""
    digits = b"%d" % ino
    given = [node for node in nodes if node.what == "entry" and node.held[2] == ino]
    if not given:
        return digits
    name = max(given, key=lambda node: node.at).held[5]
    return digits + b"-" + cut(name, GREATEST_NAME - len(digits) - 1)


def deleted(nodes):
    """The deleted files by their names: what the newest node of each says."""
    reached, objects = compact_model.reached_of(nodes)
    lost = {ino: held for ino, held in objects.items() if held[2] >> 12 & 15 == 8 and held[5] and ino not in reached}
    return {shown_name(nodes, ino): held for ino, held in lost.items()}


def reason_of(name):
    """Why the host has no file of a name, or None."""
    if b"/" in name or b"\0" in name or name in (b".", b".."):
        return b"a name that no file has"
    try:
        name.decode()
    except UnicodeDecodeError:
        return b"no text"
    return None


def path_told(name):
    """A path in a line of text: plain bytes, and the others, a slash of a name too, as \\x and two digits."""
    return b"/" + hostile_model.escaped(name).encode()


# ---- one image

def files_in(folder):
    """What is in a folder that was made: the name, the bytes (of a large one their number), permissions and time of each."""
    found = {}
    for name in os.listdir(os.fsencode(folder)):
        path = os.path.join(os.fsencode(folder), name)
        is_ = os.lstat(path)
        large = is_.st_size > SPARSE
        found[name] = (stat.S_ISREG(is_.st_mode), is_.st_size if large else read(path), stat.S_IMODE(is_.st_mode), int(is_.st_mtime))
    return found


def wanted_of(nodes, made):
    """The same by the model, but for the names that no file has."""
    plain = compact_model.plain(nodes)
    return {
        name: (True, held[5] if held[5] > SPARSE else hostile_model.content(plain, held[0], held[5]), held[2] & 0o1777, held[7])
        for name, held in made.items()
        if not reason_of(name)
    }


def try_image(about, image, order, size=BLOCK):
    """Of an image what is in the new folder and what is told, or why it is refused; and how many files it has."""
    write("image", image)
    shutil.rmtree("out", ignore_errors=True)
    done = run("extract", "--deleted", *options_of(order, size), "image", "out")
    nodes, fault = (None, "I1 NoNodes") if decompress_model.has_no_node(image, size, order) else compact_model.nodes_through(image, size, order)
    if not fault and not compact_model.is_folder(hostile_model.tree(compact_model.plain(nodes))[0], 1):
        fault = "M6 RootKind"
    if fault:
        verdict(f"{about}: {fault}", done.status == 1 and done.err.startswith(b"jffs2_image: " + fault.encode()) and not os.path.exists("out"), done)
        return 0
    files = deleted(nodes)
    verdict(f"{about}: the files", done.status in (0, 3) and files_in("out") == wanted_of(nodes, files), done)
    told = [line for line in done.err.splitlines() if line.startswith(b"left out ")]
    left = [b"left out " + path_told(name) + b": " + reason_of(name) for name in sorted(files) if reason_of(name)]
    _, _, _, noted = hostile_model.report(image, size, order)
    seen = [hostile_model.seen(tile, head, order)[0] for _, tile, head in compact_model.tiles_of(image, size, order) if head]
    verdict(f"{about}: what is told", (told, done.out) == (left, b""), done)
    verdict(f"{about}: the status", done.status == (3 if left or noted or "attribute" in seen else 0), done)
    return len(files)


# ---- the groups

def random_images():
    count = sum(try_image(f"random image {seed}", *compact.random_image(seed)) for seed in range(200))
    verdict(f"random images have many deleted files: {count}", count > 100)


def by_others():
    """Nodes of few numbers, compressed in each method, some of them wrong; torn ends; and images of mkfs.jffs2."""
    for made in images.of_others(20, 20, BLOCK):
        try_image(*made)


def after_mkfs():
    """Images of mkfs.jffs2, of which the names of some entries are removed by nodes behind it, of higher versions."""
    count = 0
    for about, image, order, size in images.of_mkfs():
        nodes, fault = compact_model.nodes_through(image, size, order)
        if fault:
            continue
        make, chance = images.Maker(order), random.Random(about)
        entries = [node.held for node in nodes if node.what == "entry"]
        gone = [make.entry(held[0], held[1] + 1000, 0, held[5], 0) for held in chance.sample(entries, len(entries) // 2)]
        behind = make.laid(gone, size)
        count += try_image(f"{about}, names removed", image + b"\xff" * (-len(image) % size) + behind, order, size)
    verdict(f"files of mkfs.jffs2 come back: {count}", count > 10)


def lengths():
    """Names of all lengths, of characters of one to four bytes and of none, under numbers of one to ten digits."""
    units = (b"n", "\u00e9".encode(), "\u20ac".encode(), "\U0001f600".encode(), b"\x80", b"\xc3", b"a\xe2\x82\xac")
    for order in "<>":
        make = images.Maker(order)
        for ino in (2, 12, 123, 65535, 1234567, 4294967295):
            for unit in units:
                for length in (1, 240, 243, 244, 247, 249, 250, 251, 252, 253, 254):
                    name = (unit * length)[:length]
                    nodes = [make.entry(1, 1, ino, name), make.entry(1, 2, 0, name), make.inode(ino, 1, b"text", 4)]
                    try_image(f"{len(unit)} bytes, {length}, {ino}, {order}", make.laid(nodes, BLOCK), order)


def by_hand():
    """What is deleted, and what is not."""
    for order in "<>":
        make = images.Maker(order)
        nodes = [make.entry(1, 1, 5, b"a"), make.inode(5, 1, b"abcd", 4), make.entry(1, 2, 0, b"a")]
        nodes += [make.inode(6, 1, b"never named", 11), make.inode(7, 1, b"was", 3), make.inode(7, 2, b"", 0)]
        nodes += [make.inode(8, 1, b"way", 3, mode=images.SYMLINK), make.inode(9, 1, b"", 0, mode=images.DIRECTORY)]
        nodes += [make.entry(9, 1, 10, b"below"), make.inode(10, 1, b"in a directory", 14, mode=0o104751)]
        nodes += [make.entry(1, 3, 11, b"here"), make.inode(11, 1, b"stays", 5), make.entry(1, 4, 11, b"gone"), make.entry(1, 5, 0, b"gone")]
        nodes += [make.packed(images.ZLIB, 12, 1, b"packed " * 9), make.entry(1, 7, 12, b"newer"), make.entry(1, 6, 12, b"last"),
                  make.entry(1, 9, 0, b"newer"), make.entry(1, 8, 0, b"last")]
        nodes += [make.entry(1, 10, 13, b"a/b"), make.entry(1, 11, 0, b"a/b"), make.inode(13, 1, b"x", 1)]
        nodes += [make.entry(1, 12, 14, b"\xff"), make.entry(1, 13, 0, b"\xff"), make.inode(14, 1, b"x", 1)]
        try_image(f"what is deleted, {order}", make.laid(nodes, BLOCK), order)
        names = sorted(os.listdir("out"))
        verdict(f"these are there, {order}: {names}", names == ["10-below", "12-last", "5-a", "6"])
        verdict(f"its bytes, {order}", read("out/5-a") == b"abcd" and stat.S_IMODE(os.stat("out/10-below").st_mode) == 0o751)
        whole = make.laid([make.inode(1, 1, b"", 0, mode=images.DIRECTORY), make.entry(1, 1, 2, b"a"), make.inode(2, 1, b"f", 1)], BLOCK)
        try_image(f"nothing is deleted, {order}", whole, order)
        verdict(f"an empty folder, {order}", os.listdir("out") == [])
        try_image(f"a root that is a file, {order}", make.laid([make.inode(1, 1, b"f", 1)], BLOCK), order)
        twins = [make.inode(2, 1, b"f", 1), make.inode(2, 1, b"g", 1)]
        try_image(f"a clash, {order}", make.laid(twins, BLOCK), order)
        try_image(f"data that are wrong, {order}", make.laid([make.inode(2, 1, b"junk", 9, images.ZLIB, 9)], BLOCK), order)
        try_image(f"no node, {order}", b"\x12" * 64, order)


def of_the_program():
    """Files that the program itself wrote, and then removed, replaced and wrote over; in its compressed image by `update`."""
    texts = {name: random.Random(name).randbytes(40) + name.encode() * 3000 for name in ("one", "two", "three", "four")}
    for name, text in texts.items():
        write(name, text)
    write_lines("lines", ["mkdir 755 /d", "time 7", "file 640 /one one", "file 600 /d/two two", "file 644 /three three", "link /d/two /hard"])
    write_lines("gone", ["remove /one", "put 644 /three four", "remove /d/two", "rename /three /d/new", "remove /hard"])
    wanted = {"one": texts["one"], "hard": texts["two"], "three": texts["three"]}
    for order in "<>":
        words = options_of(order)
        made = [run("build", *words, "--blocks", "40", "lines", "flash"), run("compress", *words, "flash", "packed")]
        made += [run("append", *words, "--blocks", "40", "flash", "gone", "removed")]
        made += [run("update", *words, "--blocks", "40", "packed", "gone", "updated")]
        verdict(f"images with removed files, {order}: {made}", [done.status for done in made] == [0, 0, 0, 0])
        for name in ("flash", "removed", "packed", "updated"):
            count = try_image(f"{name}, {order}", read(name), order)
            found = {it.split("-", 1)[1]: read(f"out/{it}") for it in os.listdir("out")}
            right = found == wanted and count == 3 if name in ("removed", "updated") else not found
            verdict(f"the files come back, {name}, {order}: {sorted(found)}", right)


if __name__ == "__main__":
    sys.exit(run_all((by_hand, of_the_program, lengths, after_mkfs, by_others, random_images)))
