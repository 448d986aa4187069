#!/usr/bin/env python3
"""Runs `history` on random images and on those of other makers, against a model.

Usage: tests/history.py [PROGRAM]. Entries and inode nodes, compressed or not, with twins, deletions, rings, damage and dead nodes, in
both orders: each line and the totals are those of tests/history_model.py, without a path and with paths that name something, once
named something, or never did, and with bounds of times. The bytes of lines `was` are those that `cat --ino` prints. What is live is
what `map` counts as live. Then images that do not mount, of which nothing is printed. The last line is 'N passed, M failed'.
"""
import hashlib
import random
import subprocess
import sys

import compact
import compact_model
import compressed_images as images
import history_model as model
import hostile_model
from groups import BLOCK, PROGRAM, options_of, run, run_all, verdict, write


def word_of(path):
    """The path as a word of the command line."""
    return "".join(f"\\x{b:02x}" if b < 33 or b > 126 or b == 92 else chr(b) for b in path)


def paths_of(nodes, chance):
    """Some paths: of what is there, of what was there, and of what never was."""
    objects, names = hostile_model.tree(compact_model.plain(nodes))
    entered, found = {1: b""}, [b"/"]
    for parent in sorted(names):
        for name, ino in names[parent] if parent in entered else []:
            if compact_model.is_folder(objects, ino):
                entered.setdefault(ino, entered[parent] + b"/" + name)
    for node in nodes:
        if node.what == "entry" and node.held[0] in entered:
            found.append(entered[node.held[0]] + b"/" + node.held[5])
    return chance.sample(sorted(set(found)), min(len(set(found)), 4)) + [b"/never", b"/a/b/c/d/e/f/g"]


def try_paths(about, image, order, size, nodes):
    """The lines of the objects that some paths ever named."""
    for path in paths_of(nodes, random.Random(about)):
        status, text, said = run("history", *options_of(order, size), "image", word_of(path))
        numbers = model.former(nodes, path)
        if numbers is None:
            right = (status, text) == (1, "") and said.startswith("jffs2_image: P3 Path ")
        else:
            right = (status, text) == (0, model.text_of(image, size, order, nodes, numbers))
        verdict(f"{about}: {word_of(path)}", right)
        try_digests(about, order, size, text)


def bounds_of(nodes, chance):
    """Some bounds of times: of nodes, beside them, and any; and none."""
    times = [node.held[3 if node.what == "entry" else model.MTIME] for node in nodes] or [0]
    near = [min(max(chance.choice(times) + chance.randint(-1, 1), 0), 4294967295) for _ in range(2)]
    return [(near[0], None), (None, near[1]), (min(near), max(near)), (max(near), min(near)), (0, 4294967295)]


def words_of_times(since, until):
    """The bounds as words of the command line, in both orders and forms."""
    words = [] if since is None else ["--since", str(since)]
    return words if until is None else [f"--until={until}", *words]


def try_times(about, image, order, size, nodes):
    """The lines of nodes of some times, and of those of a path."""
    chance = random.Random(about)
    for since, until in bounds_of(nodes, chance):
        words = [*words_of_times(since, until), *options_of(order, size), "image"]
        verdict(f"{about}: {words[:3]}", run("history", *words)[1] == model.text_of(image, size, order, nodes, None, since, until))
        path = chance.choice(paths_of(nodes, chance))
        numbers = model.former(nodes, path)
        if numbers is not None:
            wanted = model.text_of(image, size, order, nodes, numbers, since, until)
            verdict(f"{about}: {words[:3]} {word_of(path)}", run("history", *words, word_of(path))[1] == wanted)


def content_of(*words):
    """Runs `cat`, and answers its status and its bytes."""
    done = subprocess.run([PROGRAM, "cat", *words], stdin=subprocess.DEVNULL, capture_output=True, check=False)
    return done.returncode, done.stdout


def try_digests(about, order, size, text):
    """The digests of lines `was` are those of what `cat --ino` prints; an object without one has no content."""
    for line in text.splitlines():
        words = line.split()
        if words[0] == "was":
            status, content = content_of("--ino", words[2], *options_of(order, size), "image")
            summed = ["size", str(len(content)), "sha256", hashlib.sha256(content).hexdigest()]
            verdict(f"{about}: {line}", (status in (0, 3) and words[-4:] == summed) if "sha256" in words else status == 1)


def try_image(about, image, order, size=BLOCK):
    """Of an image the text, or its fault; and whether it mounts."""
    write("image", image)
    words = options_of(order, size)
    status, text, said = run("history", *words, "image")
    mapped, drawn, noted = run("map", *words, "image")
    nodes, fault = compact_model.nodes_through(image, size, order)
    if fault or mapped == 1:
        verdict(f"{about}: it is refused as by map", (status, text, said) == (mapped, drawn, noted) == (1, "", said))
        return 0
    verdict(f"{about}: the text", text == model.text_of(image, size, order, nodes))
    verdict(f"{about}: the status and the notes", (status, said) == (mapped, noted))
    try_paths(about, image, order, size, nodes)
    try_times(about, image, order, size, nodes)
    return 1


def random_images():
    count = sum(try_image(f"random image {seed}", *compact.random_image(seed)) for seed in range(150))
    verdict(f"most random images have a history: {count}", count > 100)


def by_others():
    """Nodes of few numbers, compressed in each method, some of them wrong; torn ends; and images of mkfs.jffs2."""
    for made in images.of_others(20, 20, BLOCK):
        try_image(*made)


def digests():
    """The lines `was` of the first image below."""
    return (f"was ino 2 versions 1 to 1 size 5 sha256 {hashlib.sha256(b'first').hexdigest()}\n"
            f"was ino 3 versions 1 to 2 size 5 sha256 {hashlib.sha256(b'third').hexdigest()}\n")


def by_hand():
    """A name that was given to one object after another, and removed; names that are no text; greatest numbers."""
    for order in "<>":
        make = images.Maker(order)
        root = make.inode(1, 1, b"", 0, mode=images.DIRECTORY)
        nodes = [root, make.entry(1, 1, 2, b"a"), make.inode(2, 1, b"first", 5), make.entry(1, 2, 3, b"a")]
        nodes += [make.inode(3, 1, b"second", 6), make.entry(1, 3, 0, b"a"), make.inode(3, 2, b"third", 5)]
        nodes += [make.entry(1, 4, 4, b"<&> \\\xff"), make.inode(4, 4294967295, b"", 4294967295, mode=0o170777)]
        image = make.laid(nodes, BLOCK)
        write("image", image)
        try_image(f"a name of two objects, {order}", image, order)
        words = options_of(order, BLOCK)
        status, text, _ = run("history", *words, "image", "/a")
        lines = [line.split()[1:3] for line in text.splitlines()]
        wanted = [["deleted", "entry"], ["deleted", "inode"], ["deleted", "entry"], ["deleted", "inode"], ["deleted", "inode"]]
        objects = [["ino", "2"], ["ino", "3"]]
        verdict(f"what was there, {order}", status == 0 and lines == [*wanted, ["live", "0"], *objects])
        verdict(f"digests, {order}", text.endswith(digests()))
        verdict(f"what never was, {order}", run("history", *words, "image", "/b")[:2] == (1, ""))
        verdict(f"no path, {order}", run("history", *words, "image", "a")[:2] == (1, ""))
        verdict(f"no image, {order}", run("history", *words, "image", "/a/b/c")[:2] == (1, ""))


if __name__ == "__main__":
    sys.exit(run_all((by_hand, by_others, random_images)))
