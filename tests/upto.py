#!/usr/bin/env python3
"""Runs `cat --ino I [--upto V]` on random images and on those of other makers, against a model.

Usage: tests/upto.py [PROGRAM]. Of each number that has inode nodes, deleted ones too, each of its versions, one version below them
and one between, compressed or not, with twins, clashes, damage and dead nodes, in both orders: the bytes are those of
tests/upto_model.py. Without --upto, and up to the highest version, they are those that `cat --decompress PATH` writes, if a path of
the tree names a regular file of this number. Then numbers without nodes, directories, and nodes that are refused only if they are
taken. The last line is 'N passed, M failed'.
"""
import random
import subprocess
import sys

import compact
import compact_model
import compressed_images as images
import hostile_model
import upto_model as model
from groups import BLOCK, PROGRAM, options_of, run_all, verdict, write
from history import word_of


def cat(order, size, *words):
    """Runs `cat` of the image, and answers its status, the bytes, and what it says."""
    line = [PROGRAM, "cat", *options_of(order, size), *words]
    done = subprocess.run(line, stdin=subprocess.DEVNULL, capture_output=True, check=False)
    return done.returncode, done.stdout, done.stderr.decode()


def revision(ino, version=None):
    """The words for a revision."""
    return ["--ino", str(ino)] + ([] if version is None else ["--upto", str(version)])


def is_as_model(image, order, size, ino, version=None):
    """Whether the program does of a revision what the model says."""
    wanted, fault = model.upto(image, size, order, ino, model.LAST if version is None else version)
    status, found, said = cat(order, size, *revision(ino, version), "image")
    if fault:
        return status == 1 and found == b"" and said.startswith(f"jffs2_image: {fault}\n")
    return status in (0, 3) and found == wanted


def some_versions(versions, chance):
    """Each version, one below, one between, and the greatest that there is."""
    return sorted({*versions, max(0, min(versions) - 1), chance.randrange(0, max(versions) + 1), model.LAST})


def files_of(nodes):
    """A path of each regular file that names lead to."""
    objects, names = hostile_model.tree(compact_model.plain(nodes))
    entered, found = {1: b""}, {}
    left = [1]
    while left:
        parent = left.pop()
        for name, ino in names.get(parent, []) if compact_model.is_folder(objects, parent) else []:
            way = entered[parent] + b"/" + name
            if ino in objects and objects[ino][2] >> 12 & 15 == 8 and is_word(name):
                found.setdefault(ino, way)
            if compact_model.is_folder(objects, ino) and ino not in entered and is_word(name):
                entered[ino] = way
                left.append(ino)
    return found


def is_word(name):
    """Whether a path can have this name."""
    return not (b"/" in name or b"\0" in name or name in (b".", b".."))


def try_paths(about, image, order, size):
    """Of a file that is there, all of its nodes give what `cat` gives of its path."""
    nodes, fault = compact_model.nodes_through(image, size, order)
    if fault:
        return 0
    found = files_of(nodes)
    for ino, path in found.items():
        status, wanted, _ = cat(order, size, "--decompress", "image", word_of(path))
        if status not in (0, 3):
            continue
        highest = max(node.held[1] for node in nodes if node.what == "inode" and node.held[0] == ino)
        same = all(cat(order, size, *revision(ino, version), "image")[1] == wanted for version in (None, highest))
        verdict(f"{about}: {word_of(path)} as by its path", same)
    return len(found)


def try_image(about, image, order, size=BLOCK):
    """Each revision of each number of an image; and how many differ from the last one."""
    write("image", image)
    chance, older = random.Random(about), 0
    for ino, versions in sorted(model.versions_of(image, size, order).items()):
        wrong = [v for v in (None, *some_versions(versions, chance)) if not is_as_model(image, order, size, ino, v)]
        verdict(f"{about}: {ino} up to {wrong}", not wrong)
        last = model.upto(image, size, order, ino)
        older += sum(1 for v in versions if model.upto(image, size, order, ino, v) != last)
    verdict(f"{about}: no such number", is_as_model(image, order, size, 4000000000))
    verdict(f"{about}: the root", is_as_model(image, order, size, 1))
    try_paths(about, image, order, size)
    return older


def random_images():
    count = sum(try_image(f"random image {seed}", *compact.random_image(seed, 0.2)) for seed in range(60))
    verdict(f"many revisions are unlike the last one: {count}", count > 100)


def by_others():
    """Nodes of few numbers, compressed in each method, some of them wrong; torn ends; and images of mkfs.jffs2."""
    for made in images.of_others(15, 15, BLOCK):
        try_image(*made)


def by_hand():
    """A file that is written, written over and deleted; and what is refused only above a version."""
    for order in "<>":
        make = images.Maker(order)
        nodes = [make.inode(5, 1, b"abcd", 4), make.entry(1, 1, 5, b"a"), make.inode(5, 2, b"XY", 6, offset=2)]
        nodes += [make.inode(2, 5, b"s", 1), make.inode(5, 3, b"", 3), make.packed(images.ZLIB, 5, 5, b"abcdefgh")]
        nodes += [make.inode(5, 4, b"!", 9, offset=8), make.entry(1, 2, 0, b"a")]
        nodes += [make.inode(6, 1, b"way", 3, mode=images.SYMLINK), make.inode(7, 1, b"", 0, mode=images.DIRECTORY)]
        nodes += [make.inode(8, 1, b"ok", 2), make.inode(8, 2, b"p", 1), make.inode(8, 2, b"q", 1)]
        nodes += [make.inode(9, 1, b"z", 1), make.inode(9, 2, b"junk", 8, images.ZLIB, 8), make.header(0xE0F7, 12)]
        image = make.laid(nodes, BLOCK)
        try_image(f"a file that is deleted, {order}", image, order)
        for ino, version, wanted in (
            (5, 1, b"abcd"), (5, 2, b"abXY\0\0"), (5, 3, b"abX"), (5, 4, b"abXY\0\0\0\0!"), (5, 5, b"abcdefgh"), (5, None, b"abcdefgh"),
            (2, None, b"s"), (6, 1, b"way"), (8, 1, b"ok"), (9, 1, b"z"),
        ):
            status, found, said = cat(order, BLOCK, *revision(ino, version), "image")
            verdict(f"{ino} up to {version}, {order}: {status} {said}", status in (0, 3) and found == wanted)
        for ino, version, fault in (
            (5, 0, "I4 NoInode"), (4, None, "I4 NoInode"), (7, 1, "I5 NoContent"), (1, None, "I5 NoContent"), (8, 2, "M5 Clash at "),
            (9, 2, "Z1 Data at "),
        ):
            status, found, said = cat(order, BLOCK, *revision(ino, version), "image")
            verdict(f"{ino} up to {version}, {order}: {fault}", (status, found) == (1, b"") and said.startswith(f"jffs2_image: {fault}"))


if __name__ == "__main__":
    sys.exit(run_all((by_hand, by_others, random_images)))
