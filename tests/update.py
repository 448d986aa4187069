#!/usr/bin/env python3
"""Runs `update` on images with blank blocks anywhere, and `build` and `pack` --compress, against a model.

Usage: tests/update.py [PROGRAM]. Images of `build`, `compress` and mkfs.jffs2, whose blocks are put into another order with blank
ones between them, take the lines of listings, in both orders, with --plain and with --tail. Each byte of IMAGE stays that is not
in a blank block (with --tail: nor in the rest of a begun one); each new node stands where tests/update_model.py says; OUT shows
the file system of the plain model of tests/cuts.py, and so does what is left after a stop behind each node and one byte before
it. The note on the blank blocks that are left is that of Linux's own lines. Then thirty updates one after another, what is
refused, and what OUT is then. `build --compress` and `pack --compress` write the nodes that `build` and `pack` write, in their
order, some of them compressed. The last line is 'N passed, M failed'.
"""
import os
import random
import subprocess
import sys

import hostile_model
import update_model as model
from cuts import TREE, Tree, hexed, laid
from groups import BLOCK, ORDERS, PROGRAM, ROOT, options_of, read, run, run_all, verdict, write, write_lines

BASE = TREE + ["symlink /s d/a", "write /t 4000 " + (b"more text, line by line\n" * 400).hex(), "write /t 100 " + hexed(2, 9000)]
LISTINGS = {
    "a name": ["create 0644 /b"],
    "a file": ["time 9", "create 0644 /n", "write /n 0 " + hexed(3, 12288), "rename /n /d/n"],
    "text": ["create 0644 /n", "write /n 0 " + (b"text " * 3000).hex(), "truncate /n 777", "write /n 2000 f0"],
    "changes": ["write /d/a 100 " + hexed(4, 300), "truncate /t 50", "remove /s", "mkdir 0700 /e", "link /d/a /e/l"],
}


def steps_of(tree, lines):
    """The steps of a listing on a file system, each to be called before the next one is made."""
    return (step for *_, step in laid(tree, lines, 4096, {"time": 0, "owner": (0, 0)}))


def tree_of(*listings):
    """The file system after listings, one after another, and how many steps the last one has."""
    tree, count = Tree(), 0
    for lines in listings:
        count = 0
        for count, step in enumerate(steps_of(tree, lines), 1):
            step()
    return tree, count


def note_of(image, order, size=BLOCK):
    """What stands on standard error of an image with findings."""
    findings = hostile_model.report(image, size, order)[3]
    word = "finding" if findings == 1 else "findings"
    said = f"jffs2_image: note: {findings} {word}, see check --scan; a wrong --block or --endian shows as findings too, see info\n"
    return said if findings else ""


def shows(image, order, tree, size=BLOCK):
    """Whether an image shows this file system through its compression, with the bytes of its files."""
    write("shown", image)
    told = list(tree.lines())
    words = ["--decompress", *options_of(order, size), "shown"]
    if run("ls", *words)[1].splitlines() != [line for line, _ in told]:
        return False
    files = [file for _, file in told if file]
    found = (subprocess.run([PROGRAM, "cat", *words, path], capture_output=True, check=False).stdout for path, _ in files)
    return all(data == body for data, (_, body) in zip(found, files))


# ---- images of a device

def spread(image, order, seed, blank=3, size=BLOCK):
    """The blocks of an image in another order, with blank ones between them, of which one has a part of its marker."""
    chance = random.Random(f"update {seed}")
    blocks = [model.block_of(image, k, size) for k in range(-(-len(image) // size))]
    blocks += [b"\xff" * size] * (blank - 1) + [model.marker(order)[:7].ljust(size, b"\xff")]
    chance.shuffle(blocks)
    return b"".join(blocks)


def device_image(order, packed, seed):
    """An image of the base, its data compressed or not, as a device leaves it."""
    write_lines("base.txt", BASE)
    run("build", "--blocks", "16", *options_of(order), "base.txt", "base")
    if packed:
        run("compress", *options_of(order), "base", "base")
    return spread(read("base"), order, seed)


# ---- one update

def is_kept(image, out, row, order, size=BLOCK):
    """Whether all that an update may not change is as it was, and what it left is erased."""
    places = dict(row)
    for number in range(-(-len(out) // size)):
        before, after = model.block_of(image, number, size), model.block_of(out, number, size)
        at = places.get(number, size)
        nodes = [(a, n) for a, n, _ in model.nodes_in(out, [(number, at)], size, order)] if number in places else []
        if before[:at] != after[:at]:
            return False
        end = max((a + n - number * size for a, n in nodes), default=at)
        if after[end:] != b"\xff" * (size - end):
            return False
    return len(out) >= len(image)


def blocks_of(image, words, size=BLOCK):
    """How many blocks the flash has: those that are given, or else those of the image."""
    return int(words[words.index("--blocks") + 1]) if "--blocks" in words else -(-len(image) // size)


def update(image, order, lines, *words, size=BLOCK):
    """Runs `update`, and answers what it told, OUT, the openings that it had, and the nodes that it put there."""
    write("image", image)
    write_lines("listing", lines)
    if os.path.exists("out"):
        os.remove("out")
    told = run("update", *options_of(order, size), *words, "image", "listing", "out")
    out = read("out") if os.path.exists("out") else None
    row = list(model.openings(image, size, blocks_of(image, words, size), order, "--tail" in words))
    return told, out, row, list(model.nodes_in(out, row, size, order)) if out else []


def put_bytes(nodes, size=BLOCK):
    """How many bytes go out for nodes: from the first to the last of each block, with its marker and what fills nodes up."""
    ends = {}
    for address, length, _ in nodes:
        number = address // size
        first = number * size if address % size == model.MARKER_LENGTH else address
        ends[number] = (ends.get(number, (first, 0))[0], hostile_model.pad4(address + length))
    return sum(end - first for first, end in ends.values())


def try_update(about, image, order, base, lines, *words):
    """All that this test looks at of one update, but for its stops."""
    (status, told, said), out, row, nodes = update(image, order, lines, *words)
    tree, steps = tree_of(base, lines)
    ops = sum(line.split(" ")[0] not in ("time", "owner") for line in lines)
    line = f"accepted {ops} nodes {len(nodes)} bytes {put_bytes(nodes)}\n"
    if out is None:
        verdict(f"{about}: an image", False)
        return None, []
    note = note_of(image, order) + model.note_of_left(out, BLOCK, blocks_of(image, words), order)
    verdict(f"{about}: what is told", (status, told, said) == (0, line, note))
    verdict(f"{about}: what is kept", is_kept(image, out, row, order))
    wanted = list(model.places(row, [length for _, length, _ in nodes], BLOCK))
    verdict(f"{about}: places", [address for address, _, _ in nodes] == wanted and len(nodes) == steps)
    verdict(f"{about}: each byte", out == model.with_nodes(model.erased_in(image, row, BLOCK), nodes, BLOCK, order))
    verdict(f"{about}: the tree", shows(out, order, tree))
    return out, nodes


def is_packed(node, order):
    """Whether a node's data are compressed."""
    what, held = hostile_model.seen(node[2] + b"\xff" * (-node[1] % 4), (node_kind(node, order), node[1]), order)
    return what == "compressed" and held[0] == 6


def node_kind(node, order):
    return int.from_bytes(node[2][2:4], {"<": "little", ">": "big"}[order])


def cases():
    """Each listing on a device's image in each order, compressed or not, with the words of `update`, and a name for it."""
    for seed, (about, lines) in enumerate(LISTINGS.items()):
        for order in "<>":
            for packed in (False, True):
                image = device_image(order, packed, seed)
                for words in ([], ["--plain"], ["--tail"], ["--tail", "--plain", "--blocks", "20"]):
                    name = f"{about}, {ORDERS[order]}{', compressed' if packed else ''} {' '.join(words)}"
                    yield name, order, image, lines, words


def updates():
    for name, order, image, lines, words in cases():
        _, nodes = try_update(name, image, order, BASE, lines, *words)
        some = any(is_packed(node, order) for node in nodes)
        verdict(f"{name}: forms", some == (not name.startswith("a name,") and "--plain" not in words))


def left():
    """The note on the blank blocks that are left: one more, as many as Linux keeps in reserve, fewer, and none."""
    seen = set()
    for order, size, some in (("<", BLOCK, 3), (">", BLOCK, 3), ("<", 65536, 4)):
        write_lines("base.txt", BASE)
        run("build", "--blocks", "16", *options_of(order, size), "base.txt", "base")
        base = -(-len(read("base")) // size)
        for blank in range(1, some + 3):
            words, blocks = ["--blocks", str(base + blank)], base + blank
            told, out, *_ = update(read("base"), order, ["create 0644 /b"], *words, size=size)
            seen.add((blank - 1) - model.linux_reserve(size, blocks))
            note = model.note_of_left(out, size, blocks, order)
            is_noted = blank - 1 < model.linux_reserve(size, blocks)
            verdict(f"{blank} blank blocks of {size}, {ORDERS[order]}", told[0] == 0 and told[2] == note and bool(note) == is_noted)
    verdict("more, as many and fewer", {-1, 0, 1} <= seen)


def stops():
    """What is left after a stop behind each node, and one byte before."""
    for about, lines in LISTINGS.items():
        for order, words in (("<", ["--tail"]), (">", [])):
            image = device_image(order, True, 7)
            *_, nodes = update(image, order, lines, *words)
            tree, _ = tree_of(BASE)
            right = bool(nodes)
            for count, (node, step) in enumerate(zip(nodes, steps_of(tree, lines)), 1):
                right = right and shows(model.with_nodes(image, nodes[:count], BLOCK, order, node[1] - 1), order, tree)
                step()
                right = right and shows(model.with_nodes(image, nodes[:count], BLOCK, order, node[1]), order, tree)
            verdict(f"stops of {about}, {ORDERS[order]} {' '.join(words)}", right)


# ---- many updates

def thirty():
    """Thirty updates of a small file each: with --tail they take the room of one listing of all."""
    size, blocks, lines, image = 65536, 16, [], b"\xff" * 65536
    for k in range(30):
        new = [f"create 0600 /f{k}", f"write /f{k} 0 {random.Random(k).randbytes(4400).hex()}"]
        told, out, row, nodes = update(image, "<", new, "--blocks", str(blocks), "--tail", size=size)
        lines += new
        right = told[0] == 0 and is_kept(image, out, row, "<", size) and shows(out, "<", tree_of(lines)[0], size)
        verdict(f"update {k + 1} of 30 with --tail", right)
        image = out or image
    write_lines("all", lines)
    run("build", "--blocks", str(blocks), "all", "at once")
    verdict("the room of one listing of all", len(image) <= len(read("at once")) * 1.1)
    image = b"\xff" * 65536
    for k in range(blocks + 1):
        told, out, *_ = update(image, "<", lines[2 * k : 2 * k + 2], "--blocks", str(blocks), size=size)
        image = out if told[0] == 0 else image
        if told[0]:
            break
    full = told[2].startswith("jffs2_image: S2 Full ") and k == blocks
    verdict("each takes a block without --tail, until none is blank", full)


# ---- build and pack --compress

def row_of(image, size=BLOCK):
    """All blocks of an image, as an empty flash has them."""
    return [(number, 0) for number in range(-(-len(image) // size))]


def files_of(image, words):
    """The lines of `ls` of an image, and the bytes of each of its files."""
    lines = run("ls", "--decompress", *words, image)[1].splitlines()
    paths = [line.split(" ", 7)[7] for line in lines if line.startswith("- ")]
    cat = lambda path: subprocess.run([PROGRAM, "cat", "--decompress", *words, image, path], capture_output=True, check=False).stdout
    return lines, [cat(path) for path in paths]


def try_compressed(about, order, command, *words, size=BLOCK):
    """Runs `build` or `pack` twice, without and with --compress. Answers the image with compressed nodes, and these nodes."""
    plainly = run(command, *options_of(order, size), *words, "plain")
    told = run(command, "--compress", *options_of(order, size), *words, "packed")
    plain, packed = read("plain"), read("packed")
    own = list(model.nodes_in(plain, row_of(plain, size), size, order))
    nodes = list(model.nodes_in(packed, row_of(packed, size), size, order))
    line = plainly[1].rpartition(" ")[0] + f" {put_bytes(nodes, size)}\n"
    verdict(f"{about}: what is told", told == (0, line, "") and plainly[0] == 0)
    verdict(f"{about}: the nodes", model.expansions(packed, size, order) == [data for *_, data in own])
    packs = [node for node, other in zip(nodes, own) if node[2] != other[2]]
    shorter = all(node[2] == other[2] or hostile_model.pad4(node[1]) < hostile_model.pad4(other[1]) for node, other in zip(nodes, own))
    verdict(f"{about}: forms", shorter and all(is_packed(node, order) and node[1] != 6533 for node in packs))
    wanted = list(model.places(row_of(packed, size), [length for _, length, _ in nodes], size))
    verdict(f"{about}: places", [address for address, _, _ in nodes] == wanted)
    verdict(f"{about}: each byte", packed == model.with_nodes(b"", nodes, size, order))
    return packed, nodes


def built():
    """`build --compress`: the tree is that of the model, and so is what a stop leaves."""
    for about, more in {"nothing": [], **LISTINGS}.items():
        for order in "<>":
            for page in ("4096", "8192", "16384"):
                size = BLOCK if page == "4096" else 32768
                write_lines("lines", BASE + more)
                name = f"build --compress, {about}, {ORDERS[order]}, page {page}"
                packed, nodes = try_compressed(name, order, "build", "--blocks", "16", "--page", page, "lines", size=size)
                tree = Tree()
                for *_, step in laid(tree, BASE + more, int(page), {"time": 0, "owner": (0, 0)}):
                    step()
                verdict(f"{name}: the tree", shows(packed, order, tree, size) and any(is_packed(node, order) for node in nodes))
    tree, right = Tree(), True
    write_lines("lines", BASE)
    _, nodes = try_compressed("stops of build --compress", "<", "build", "--blocks", "16", "lines")
    for count, (node, step) in enumerate(zip(nodes, steps_of(tree, BASE)), 1):
        right = right and shows(model.with_nodes(b"", nodes[:count], BLOCK, "<", node[1] - 1), "<", tree)
        step()
        right = right and shows(model.with_nodes(b"", nodes[:count], BLOCK, "<"), "<", tree)
    verdict("stops of build --compress: the trees", right)
    write_lines("lines", ["create 0644 /a", "write /a 0 " + "61" * 200])
    packed, nodes = try_compressed("200 bytes", "<", "build", "--blocks", "1", "lines")
    right = [address for address, *_ in nodes] == [12, 80, 124] and nodes[2][1] < 100
    verdict("200 bytes: three places", right and files_of("packed", options_of("<"))[1] == [b"a" * 200])


def packed_folders():
    """`pack --compress`: the tree is that of `pack`, with the bytes of the folder's files."""
    os.makedirs("folder/e", exist_ok=True)
    contents = {"a": b"", "b": b"line of text\n" * 3000, "e/c": random.Random(9).randbytes(9000), "e/d": b"x" * 70}
    for name, data in contents.items():
        write(f"folder/{name}", data)
    for order in "<>":
        for blocks in ([], ["--blocks", "16"]):
            words = [*blocks, "--time", "5", "--owner", "3", "4"]
            name = f"pack --compress, {ORDERS[order]} {' '.join(blocks)}"
            try_compressed(name, order, "pack", *words, "folder")
            lines, data = files_of("packed", options_of(order))
            verdict(f"{name}: the tree", lines == files_of("plain", options_of(order))[0] and sorted(data) == sorted(contents.values()))
            done = run("pack", "--compress", "--pad", "--atomic", *options_of(order), *words, "folder", "padded")
            length = 16 * BLOCK if blocks else -(-len(read("packed")) // BLOCK) * BLOCK
            padded = read("packed").ljust(length, b"\xff")
            verdict(f"{name} --pad --atomic", done[0] == 0 and read("padded") == padded)


def refused_compressed():
    """`build --compress`: an operation that is refused, no room, words and files that are wrong."""
    words = ["build", "--compress", *options_of("<")]
    lines = ["create 0644 /b", "create 0644 /nowhere/b", "create 0644 /c"]
    write_lines("lines", lines)
    for atomic in ([], ["--atomic"]):
        name = "beside" if atomic else "there"
        status, told, said = run(*words, *atomic, "--blocks", "2", "lines", name)
        right = (status, told) == (1, "") and "line 2" in said
        there = os.path.exists(name) and shows(read(name), "<", tree_of(lines[:1])[0])
        verdict(f"build --compress {' '.join(atomic)}, an operation that is refused", right and there == (not atomic))
    write_lines("lines", ["create 0644 /b", "write /b 0 " + random.Random(1).randbytes(9000).hex()])
    status, told, said = run(*words, "--blocks", "1", "lines", "full")
    verdict("build --compress, no room", (status, told) == (1, "") and said.startswith("jffs2_image: S2 Full needed ") and "line 2" in said)
    for about, more, status, fault in (
        ("no block", ["--blocks", "0", "lines"], 1, "jffs2_image: S7 Geometry\n"),
        ("--weak", ["--weak", "--blocks", "1", "lines"], 2, "error: "),
        ("no LISTING", ["--blocks", "1", "missing"], 1, "jffs2_image: P1 File missing\n"),
    ):
        done = run(*words, *more, "other")
        right = (done[0], done[1]) == (status, "") and done[2].startswith(fault)
        verdict(f"build --compress, {about}", right and not os.path.exists("other"))


# ---- what is refused

def refused():
    image = device_image("<", True, 1)
    lines = ["create 0644 /b", "create 0644 /nowhere/b", "create 0644 /c"]
    for words in ([], ["--atomic"]):
        (status, told, said), out, *_ = update(image, "<", lines, *words)
        right = (status, told) == (1, "") and "line 2" in said
        if words:
            verdict("an operation that is refused, --atomic", right and out is None)
        else:
            verdict("an operation that is refused", right and out is not None and shows(out, "<", tree_of(BASE, lines[:1])[0]))
    full = spread(read("base"), "<", 2, blank=1)
    (status, told, said), out, *_ = update(full, "<", ["create 0644 /b", "write /b 0 " + random.Random(1).randbytes(9000).hex()])
    verdict("no room", (status, told) == (1, "") and said.startswith("jffs2_image: S2 Full needed ") and out is not None and shows(out, "<", tree_of(BASE, ["create 0644 /b"])[0]))
    write("image", image)
    write_lines("listing", ["create 0644 /b"])
    for about, words, status, fault in (
        ("fewer blocks than it has", ["--blocks", "2"], 1, "jffs2_image: S7 Geometry\n"),
        ("a page that is none", ["--page", "4097"], 2, "error: invalid value '4097'"),
        ("a block that holds no node of it", ["--block", "4096"], 1, "jffs2_image: Z2 TooLong at "),
    ):
        told = run("update", "--block", str(BLOCK), *words, "image", "listing", "other") if "--block" not in words else run("update", *words, "image", "listing", "other")
        verdict(about, told[:2] == (status, "") and told[2].startswith(fault) and not os.path.exists("other"))
    for about, words in (("no LISTING", ["image", "missing", "other"]), ("no IMAGE", ["missing", "listing", "other"])):
        told = run("update", *options_of("<"), *words)
        verdict(about, told[:2] == (1, "") and told[2].startswith("jffs2_image: P1 File missing\n") and not os.path.exists("other"))
    broken = bytearray(image)
    at = next(at for at, what, _ in hostile_model.report(image, BLOCK)[1] if what == "compressed")
    broken[at + 80] ^= 1
    told, out, *_ = update(bytes(broken), "<", ["create 0644 /b"])
    note = note_of(bytes(broken), "<") + model.note_of_left(out or image, BLOCK, blocks_of(broken, []), "<")
    verdict("a damaged node", told[0] == 0 and told[2] == note and note_of(bytes(broken), "<") != note_of(image, "<") and out is not None)
    verdict("IMAGE itself is never changed", read("image") == bytes(broken))


# ---- the file

def files():
    image = device_image("<", True, 3)
    for words in ([], ["--atomic"]):
        told, out, *_ = update(image, "<", ["create 0644 /b"], "--pad", "--blocks", "20", *words)
        verdict(f"--pad --blocks 20 {' '.join(words)}", told[0] == 0 and len(out) == 20 * BLOCK and shows(out, "<", tree_of(BASE, ["create 0644 /b"])[0]))
    write("image", image)
    write_lines("listing", ["create 0644 /b"])
    told = run("update", *options_of("<"), "--atomic", "image", "listing", "image")
    verdict("OUT that is IMAGE", told[0] == 0 and shows(read("image"), "<", tree_of(BASE, ["create 0644 /b"])[0]))
    made = os.path.join(ROOT, "tests", "data", "default.img")
    before = run("ls", "--decompress", made)[1]
    told = run("update", "--blocks", "8", made, "listing", "out")
    after = run("ls", "--decompress", "out")[1]
    new = [line for line in after.splitlines() if line not in before.splitlines()]
    verdict("an image of mkfs.jffs2", told[0] == 0 and len(new) == 1 and new[0].endswith(" /b") and read("out").startswith(read(made)))


if __name__ == "__main__":
    sys.exit(run_all((updates, left, stops, thirty, built, packed_folders, refused_compressed, refused, files)))
