#!/usr/bin/env python3
"""Runs `compact` on random images and on those of other makers, against a model.

Usage: tests/compact.py [PROGRAM]. Entries and inode nodes of few numbers, versions, names and contents, compressed or not, with
twins, deletions, hard links, rings, damage, dead nodes and extended attributes, in both orders: what is printed, what stands on
standard error, the status, and each byte of OUT are those of tests/compact_model.py. By the model OUT shows the same tree, has no
finding and no name without an object, and another node in the place of any of its nodes makes another tree; by the program `diff`
of the two has no line, and OUT is compact. The same with `--clashes higher` of images of which nodes clash, for the nodes that stay;
where none do, it is as without these words. Then what refuses an image, the blocks of the flash, and OUT that is IMAGE. The last
line is 'N passed, M failed'.
"""
import os
import random
import subprocess
import sys

import clashes
import compact_model as model
import compressed_images as images
import decompress_model
import hostile_model
from groups import BLOCK, ORDERS, PROGRAM, options_of, read, run, run_all, verdict, write

FOLDER = images.DIRECTORY
METHODS = (None, None, images.RTIME, images.ZLIB, images.LZO, images.LZMA)
HIGHER = ("--clashes", "higher")


# ---- what is made

def is_as_model(image, order, size=BLOCK, words=(), blocks=None):
    """Whether the program does of an image what the model says, and what the model makes."""
    apart = tuple(words[:2]) == HIGHER
    write("image", image)
    if os.path.exists("out"):
        os.remove("out")
    status, told, said = run("compact", *options_of(order, size), *words, "image", "out")
    made, fault = model.compact(image, size, order, blocks, apart)
    if made is None:
        right = (status, told) == (1, "") and said.startswith(f"jffs2_image: {fault}\n")
        return right and not os.path.exists("out"), None
    notes = "".join(line + "\n" for line in model.notes_of(made))
    right = (status, told, said) == (3 if notes else 0, model.line_of(made) + "\n", notes)
    return right and read("out") == made.image, made


def is_right(image, order, made, size=BLOCK, apart=False):
    """Whether the same tree is in what was made, by the model and by the program, and nothing else; of the nodes that stay, where
    these are to be apart."""
    found, _ = model.nodes_through(image, size, order, apart)
    before = model.parted(found)[0] if apart else found
    after, fault = model.nodes_through(made.image, size, order)
    _, nodes, _, noted = hostile_model.report(made.image, size, order)
    others = [what for _, what, _ in nodes if what not in (*model.KINDS, "marker")]
    reached, _ = model.reached_of(after)
    owners = {node.held[0] for node in after if node.what == "inode"}
    whole = fault is None and model.shown(before) == model.shown(after) and owners <= reached
    again = run("compact", *options_of(order, size), "out", "again")
    told = f"compacted {made.kept} of {made.kept} nodes bytes {len(made.image)}\n"
    compact = again == (0, told, "") and read("again") == made.image
    same = made.left or run("diff", "--decompress", "--times", *options_of(order, size), "image", "out")[1] == ""
    return whole and not noted and not others and compact and same


# ---- random images

def entries(chance, make, numbers):
    """Names of few directories: some stand for nothing, some for what is not there, some twice."""
    for version in range(1, chance.randrange(2, 14)):
        pino, name = chance.choice(numbers), chance.choice((b"a", b"b", b"c", b"name"))
        yield make.entry(pino, version, chance.choice((0, *numbers, 77)), name, time=chance.choice((7, 8)))


def own_nodes(chance, make, ino, versions):
    """Nodes of one object, one over another, each of another version."""
    mode = FOLDER if ino == 1 or chance.random() < 0.4 else chance.choice((images.FILE, images.FILE, images.SYMLINK))
    size = chance.randrange(0, 40)
    for version in versions:
        content = bytes(chance.choices(b"abc\xff", k=chance.randrange(1, 24)))
        offset, method = chance.choice((0, 0, 3, 9, 20)), chance.choice(METHODS)
        size = chance.choice((size, chance.randrange(0, 40)))
        if chance.random() < 0.15:
            yield make.inode(ino, version, b"", size, 1, len(content), offset, mode)
        elif chance.random() < 0.2:
            yield make.inode(ino, version, b"", size, mode=mode)
        elif method is None:
            yield make.inode(ino, version, content, size, offset=offset, mode=mode)
        else:
            yield make.packed(method, ino, version, content, offset, size, mode)


def others(chance, make, nodes):
    """What is beside these nodes in an image of a device."""
    for node in chance.sample(nodes, min(len(nodes), chance.randrange(4))):
        yield node
    for node in chance.sample(nodes, min(len(nodes), chance.choice((0, 0, 1, 2)))):
        yield chance.choice((images.broken_sum(node), make.number(0)[:2] + node[2:], dead(make, node)))
    if chance.random() < 0.2:
        yield make.header(0xE008, 12)
    if chance.random() < 0.1:
        yield b"dirt" * chance.randrange(1, 4)
    if chance.random() < 0.05:
        yield make.header(chance.choice((0xA0F7, 0xE0F7, 0x2004)), 12)


def dead(make, node):
    """The node as it is when it is obsolete."""
    kind = int.from_bytes(node[2:4], {"<": "little", ">": "big"}[make.order]) & ~0x2000
    return node[:2] + make.number(kind)[{"<": slice(2), ">": slice(2, 4)}[make.order]] + node[4:]


def random_image(seed, twice=0.03):
    """Nodes of a few objects, with this chance for each that two of them are of one version."""
    chance = random.Random(f"compact {seed}")
    order = "<>"[seed % 2]
    make = images.Maker(order)
    numbers = range(1, chance.randrange(2, 8))
    nodes = list(entries(chance, make, numbers))
    for ino in numbers:
        versions = chance.sample(range(1, 30), chance.randrange(0, 6))
        versions += versions[:1] if chance.random() < twice else []
        nodes += own_nodes(chance, make, ino, versions)
    chance.shuffle(nodes)
    nodes += others(chance, make, nodes)
    if chance.random() < 0.5:
        chance.shuffle(nodes)
    return make.laid(nodes, BLOCK, chance.random() < 0.9), order


def try_image(about, image, order, size=BLOCK, each=True):
    """Of an image all that this test looks at; `each` node of OUT by itself, if that is asked for."""
    right, made = is_as_model(image, order, size)
    verdict(f"{about}: what is printed and written", right)
    if not made:
        return 0
    verdict(f"{about}: the tree", right and is_right(image, order, made, size))
    if each:
        nodes, _ = model.nodes_through(made.image, size, order)
        verdict(f"{about}: each node", not list(model.needless(nodes)))
    return 1


def random_images():
    count = sum(try_image(f"random image {seed}", *random_image(seed)) for seed in range(250))
    verdict(f"most random images are compacted: {count}", count > 180)


def try_apart(about, image, order):
    """The same of an image of which nodes may clash."""
    right, made = is_as_model(image, order, BLOCK, HIGHER)
    verdict(f"{about}: what is printed and written apart", right)
    if not made:
        return 0
    verdict(f"{about}: the tree of what stays", right and is_right(image, order, made, BLOCK, True))
    verdict(f"{about}: each node that stays", not list(model.needless(model.nodes_through(made.image, BLOCK, order)[0])))
    return bool(made.left)


def apart():
    """Images of which nodes clash; and others, of which the same goes out as without `--clashes higher`."""
    count = sum(try_apart(f"parted image {seed}", *random_image(seed, 0.5)) for seed in range(120))
    for seed in range(120):
        order = "<>"[seed % 2]
        count += try_apart(f"clashing image {seed}", clashes.image_of(random.Random(f"apart {seed}"), order), order)
    verdict(f"many images are compacted without nodes that clash: {count}", count > 60)
    for seed in range(40):
        image, order = random_image(seed, 0)
        write("image", image)
        plain = run("compact", *options_of(order), "image", "out")
        written = read("out") if plain[0] != 1 else b""
        again = run("compact", *options_of(order), *HIGHER, "image", "other")
        verdict(f"random image {seed}: nothing clashes", plain == again and (plain[0] == 1 or written == read("other")))


def soups():
    """Nodes of few numbers, compressed in each method, some of them wrong; and torn ends."""
    for about, image, order in images.soups_of_both(30, 40):
        try_image(about, image, order, each=False)


def all_kinds():
    """The images of compressed nodes, right and wrong ones, and those that refuse a mount."""
    for order in "<>":
        for about, image in images.images_of(images.Maker(order)):
            try_image(f"{about}, {ORDERS[order]}", image, order, each=False)


def by_others():
    """Images of mkfs.jffs2: nothing of them is superseded, so all nodes but markers go out."""
    for about, image, order, size in images.of_mkfs():
        try_image(about, image, order, size, each=False)


# ---- by hand

def made_of(nodes, order="<"):
    """What the program makes of these nodes: how many of them go out, and what stands where."""
    make = images.Maker(order)
    image = make.laid(nodes, BLOCK)
    right, made = is_as_model(image, order)
    return image, made if right and made and is_right(image, order, made) else None


def keeps(about, nodes, wanted):
    """Whether the nodes at these places of a list go out, and no others, each with its own bytes."""
    _, made = made_of(nodes)
    tiles = [node + b"\xff" * (-len(node) % 4) for node in nodes]
    image = decompress_model.laid([tiles[place] for place in wanted], BLOCK, "<")
    verdict(about, made is not None and made.image == image)


def rows():
    make = images.Maker("<")
    name = lambda pino, version, ino, text=b"a": make.entry(pino, version, ino, text)
    file = lambda ino, version, data, size, offset=0: make.inode(ino, version, data, size, offset=offset)
    folder = lambda ino, version: make.inode(ino, version, b"", 0, mode=FOLDER)
    keeps("an empty image of markers", [make.header(0x2003, 12)], [])
    keeps("a name without an object", [name(1, 1, 2)], [])
    keeps("an object without a name", [file(2, 1, b"x", 1)], [])
    keeps("a deletion", [name(1, 1, 2), file(2, 1, b"x", 1), name(1, 2, 0)], [])
    keeps("a name that is given again", [name(1, 1, 2), name(1, 2, 0), name(1, 3, 2), file(2, 1, b"x", 1)], [2, 3])
    keeps("two names of one object", [name(1, 1, 2), name(1, 2, 2, b"b"), file(2, 1, b"x", 1)], [0, 1, 2])
    keeps("a node of which one byte shows", [name(1, 1, 2), file(2, 1, b"xyz", 3), file(2, 2, b"ab", 3)], [0, 1, 2])
    keeps("a node of which no byte shows", [name(1, 1, 2), file(2, 1, b"xy", 3), file(2, 2, b"abc", 3)], [0, 2])
    keeps("a byte behind the size", [name(1, 1, 2), file(2, 1, b"xyz", 3), file(2, 2, b"ab", 2)], [0, 2])
    keeps("the newest node shows no byte", [name(1, 1, 2), file(2, 1, b"x", 1), make.inode(2, 2, b"", 1)], [0, 1, 2])
    keeps("covered by two", [name(1, 1, 2), file(2, 1, b"wxyz", 4), file(2, 2, b"ab", 4), file(2, 3, b"cd", 4, 2)], [0, 2, 3])
    keeps("an older node that lies above", [name(1, 1, 2), file(2, 3, b"cd", 2), file(2, 1, b"wx", 2)], [0, 1])
    keeps("twins", [name(1, 1, 2), file(2, 1, b"x", 1), file(2, 1, b"x", 1), name(1, 1, 2)], [2, 3])
    keeps("the root's own nodes", [folder(1, 1), folder(1, 2)], [1])
    keeps("a name below a file", [name(1, 1, 2), file(2, 1, b"", 0), name(2, 1, 3), file(3, 1, b"x", 1)], [0, 1])
    keeps("a ring below itself", [folder(2, 1), folder(3, 1), name(2, 1, 3), name(3, 1, 2)], [])
    keeps("a ring below the root", [folder(2, 1), folder(3, 1), name(2, 1, 3), name(3, 1, 2), name(1, 1, 2)], [0, 1, 2, 3, 4])
    keeps("a root in itself", [folder(1, 1), name(1, 1, 1)], [0, 1])
    packed = make.packed(images.ZLIB, 2, 1, b"a" * 60)
    keeps("compressed nodes as they are", [name(1, 1, 2), packed, make.packed(images.LZO, 2, 2, b"b" * 30, size=60)], [0, 1, 2])
    keeps("two methods of one content", [name(1, 1, 2), packed, make.packed(images.LZO, 2, 1, b"a" * 60, extra=9)], [0, 2])
    keeps("free fields, and what fills a node up", [name(1, 1, 2), make.inode(2, 1, b"x", 1, extra=77, more=3)], [0, 1])


# ---- the flash, and the file

def flashes():
    make = images.Maker("<")
    nodes = [make.entry(1, k + 2, k + 2, b"f%d" % k) for k in range(4)]
    nodes += [make.inode(k + 2, 1, bytes([k]) * 4000, 4000) for k in range(4)]
    image = make.laid(nodes, BLOCK)
    for blocks in (0, 1, 2, 3, 1 << 15, (1 << 15) + 1):
        right, made = is_as_model(image, "<", BLOCK, ["--blocks", str(blocks)], blocks)
        verdict(f"{blocks} blocks", right and (made is not None) == (blocks in (3, 1 << 15)))
    words = options_of("<")
    told = run("compact", *words, "--pad", "image", "out")
    made = model.compact(image, BLOCK, "<")[0]
    filled = made.image + b"\xff" * (-len(made.image) % BLOCK)
    verdict("--pad", (told[0], told[1]) == (0, model.line_of(made) + "\n") and read("out") == filled)
    run("compact", *words, "--pad", "--blocks", "5", "image", "out")
    verdict("--pad --blocks 5", read("out") == made.image.ljust(5 * BLOCK, b"\xff"))
    for size in (4096, 8188, 8196, 65536):
        right, _ = is_as_model(make.laid(nodes, size), "<", size)
        verdict(f"blocks of {size}", right)


def files():
    """OUT that is IMAGE: one with findings is not replaced unless that is forced."""
    image, order = b"", "<"
    make = images.Maker(order)
    nodes = [make.entry(1, 1, 2, b"a"), make.inode(2, 1, b"old", 3), make.inode(2, 2, b"new", 3)]
    for about, image, findings in (("sound", make.laid(nodes, BLOCK), 0), ("dirty", make.laid([*nodes, b"dirt"], BLOCK), 1)):
        made = model.compact(image, BLOCK, order)[0]
        for words in ([], ["--atomic"], ["--force"], ["--atomic", "--force"]):
            write("same", image)
            status, told, _ = run("compact", *options_of(order), *words, "same", "same")
            if findings and "--force" not in words:
                right = (status, told) == (1, "") and read("same") == image
            else:
                right = (status, told) == (3 if findings else 0, model.line_of(made) + "\n") and read("same") == made.image
            verdict(f"{about} image that is OUT {' '.join(words)}", right)
    write("image", image)
    status, told, said = run("compact", *options_of(order), "image", "nowhere/out")
    verdict("OUT that is not made", (status, told) == (1, "") and said.startswith("jffs2_image: P1 File nowhere/out\n"))
    status, told, said = run("compact", *options_of(order), "missing", "out")
    verdict("IMAGE that is not there", (status, told) == (1, "") and said.startswith("jffs2_image: P1 File missing\n"))
    with open("/dev/full", "wb") as full:
        done = subprocess.run([PROGRAM, "compact", *options_of(order), "image", "out"], stdout=full, stderr=subprocess.PIPE, check=False)
    verdict("a line that is not printed", done.returncode == 1 and read("out") == model.compact(image, BLOCK, order)[0].image)


def many():
    """A file that was written a million times at one place: its last node is what goes out."""
    make = images.Maker("<")
    nodes = [make.entry(1, 1, 2, b"a"), *(make.inode(2, k + 1, b"%07d" % k, 7) for k in range(1000000))]
    image = make.laid(nodes, 65536)
    write("image", image)
    told = run("compact", "image", "out")
    wanted = decompress_model.laid([nodes[0], nodes[-1] + b"\xff"], 65536, "<")
    verdict("a million superseded nodes", told == (0, f"compacted 2 of 1000001 nodes bytes {len(wanted)}\n", "") and read("out") == wanted)


if __name__ == "__main__":
    sys.exit(run_all((rows, random_images, apart, soups, all_kinds, by_others, flashes, files, many)))
