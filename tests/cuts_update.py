#!/usr/bin/env python3
"""Stops `update` where `cuts --update` says that a form stands, and one byte before, and looks at what is left.

Usage: tests/cuts_update.py [PROGRAM]. The images are those of tests/update.py: blocks in another order with blank ones in front,
between and behind, in both orders, their data compressed or not; and the listings are its own. `cuts --update` prints its lines,
with --plain and with --tail too, and `update` makes the image. Its nodes must have the addresses and lengths of the lines. With
the bytes of that image below a line's B, and those of the device's image behind them, it must mount through its compression as
the file system after the steps up to that line, and one byte earlier as that after the steps before it. What it mounts as is
the answer of tests/decompress_model.py, and the steps are those of tests/cuts.py: neither has the program's code. Then what is
refused: `update` must give the same fault. The last line is 'N passed, M failed'.
"""
import os
import random
import sys

import decompress_model
import hostile_model
import update_model as model
from cuts import laid
from groups import BLOCK, ORDERS, options_of, read, run, run_all, verdict, write, write_lines
from update import BASE, LISTINGS, cases, device_image, tree_of, update

WEAK = ["create 0644 /a", "write /a 0 bef98e24fe"]


def cuts(order, words, image="image", size=BLOCK):
    return run("cuts", "--update", *options_of(order, size), *words, "--on", image, "listing")


def told_of(text):
    """The words of each node's line, and those of the last line."""
    lines = [line.split(" ") for line in text.splitlines()]
    return lines[:-1], lines[-1] if lines else []


def stopped(out, image, stands):
    """What is left of an update after a stop: the bytes below an address, and the device's behind it, or erased flash."""
    return out[:stands] + image[stands:].ljust(len(out) - stands, b"\xff")


def mounts_as(image, order, tree, size=BLOCK):
    """Whether an image mounts through its compression as this file system, with the bytes of its files."""
    nodes, fault = decompress_model.through(image, size, order)
    if fault:
        return False
    told = list(tree.lines())
    objects, names = hostile_model.tree(nodes)
    files = [(tree.number(path), body) for path, body in (file for _, file in told if file)]
    return list(hostile_model.listed(nodes, 1, "", objects, names, set())) == [line for line, _ in told] and all(
        hostile_model.content(nodes, number, objects[number][5]) == body for number, body in files
    )


def ends_of(row, nodes, size=BLOCK):
    """From where the first opening goes on to where writing would, after these nodes."""
    first = row[0][0] * size + row[0][1] if row else 0
    return first, hostile_model.pad4(nodes[-1][0] + nodes[-1][1]) if nodes else first


def try_listing(about, order, image, lines, words):
    """Every line of one listing, with the image that is left there."""
    made, out, row, nodes = update(image, order, lines, *words)
    write("image", image)
    done = cuts(order, words)
    told, last = told_of(done[1])
    verdict(f"{about}: cuts", (made[0], done[0], done[2], last[:1]) == (0, 0, "", ["total"]))
    if made[0] or done[0]:
        return
    places = [(int(node[0], 16), int(node[1])) for node in told]
    verdict(f"{about}: the places of `update`", places == [(address, length) for address, length, _ in nodes])
    first, end = ends_of(row, nodes)
    verdict(f"{about}: the ends", last[-6:] == ["from", f"{first:08x}", "to", f"{end:08x}", "weak", "0"])
    tree, right, count = tree_of(BASE)[0], True, 0
    for node, (line, step, steps, act) in zip(told, laid(tree, lines, 4096, {"time": 0, "owner": (0, 0)})):
        right = right and node[2:10] == ["line", str(line), "step", str(step), "of", str(steps), "stands", "from"]
        stands = int(node[10], 16)
        right = right and int(node[0], 16) < stands <= int(node[0], 16) + int(node[1])
        right = right and mounts_as(stopped(out, image, stands - 1), order, tree)
        act()
        right = right and mounts_as(stopped(out, image, stands), order, tree)
        count += 1
    verdict(f"{about}: each stop", right and bool(told))
    verdict(f"{about}: as many lines as steps", count == len(told) == tree_of(BASE, lines)[1] and last[4:5] == [str(count)])
    blocks = {address // BLOCK for address, _ in places}
    verdict(f"{about}: several blocks", len(blocks) > 1 or "--plain" not in words or about.startswith(("a name", "changes")))


def lines_of_updates():
    for name, order, image, lines, words in cases():
        try_listing(name, order, image, ["# more", ""] + lines, words)


def blank_blocks():
    """Blank blocks in front of, between and behind used ones; and none but the rest of a begun one."""
    write_lines("base.txt", BASE)
    for order in "<>":
        run("build", "--blocks", "16", *options_of(order), "base.txt", "base")
        run("compress", *options_of(order), "base", "base")
        blocks = [model.block_of(read("base"), k, BLOCK) for k in range(-(-len(read("base")) // BLOCK))]
        blank = b"\xff" * BLOCK
        for about, image in (
            ("in front", [blank, blank, blank] + blocks),
            ("between", blocks[:1] + [blank, blank] + blocks[1:] + [blank]),
            ("behind", blocks + [blank, blank, blank]),
        ):
            for words in ([], ["--tail"]):
                try_listing(f"blank blocks {about}, {ORDERS[order]} {' '.join(words)}", order, b"".join(image), LISTINGS["a file"], words)
        try_listing(f"a name in a rest, {ORDERS[order]}", order, b"".join(blocks), LISTINGS["a name"], ["--tail"])


def nothing():
    """A listing without an operation, and a node that is weak."""
    for order in "<>":
        image = device_image(order, True, 5)
        _, _, row, _ = update(image, order, ["# nothing"])
        first = f"{ends_of(row, [])[0]:08x}"
        verdict(f"nothing, {ORDERS[order]}", cuts(order, []) == (0, f"total operations 0 steps 0 from {first} to {first} weak 0\n", ""))
        write("image", b"\xff" * 2 * BLOCK)
        write_lines("listing", WEAK)
        done = cuts(order, [])
        verdict(f"a weak node, {ORDERS[order]}", done[0] == 3 and "\nweak 0000007c at 68\n" in done[1] and done[1].endswith(" weak 1\n"))


def same_fault(about, order, words, starts, image="image"):
    """`update` and `cuts --update` give the same fault; of the latter's lines those before it are answered."""
    status, told, said = cuts(order, words, image)
    made = run("update", *options_of(order), *words, image, "listing", "out")
    right = (status, made[0]) == (1, 1) and said.startswith(f"jffs2_image: {starts}")
    verdict(f"{about}, {ORDERS[order]}", right and said.splitlines()[0] == made[2].splitlines()[0])
    return told


def refused():
    for order in "<>":
        image = device_image(order, True, 1)
        write("image", image)
        write_lines("listing", ["create 0644 /b", "create 0644 /nowhere/b", "create 0644 /c"])
        told = same_fault("an operation that is refused", order, [], "S1 Refused O3 NotFound line 2")
        verdict("the lines before it", [line.split(" ")[2:6] for line in told.splitlines()] == [["line", "1", "step", "1"], ["line", "1", "step", "2"]])
        write_lines("listing", ["create 0644 /b", "write /b 0 " + random.Random(1).randbytes(40000).hex()])
        told = same_fault("no room", order, [], "S2 Full needed ")
        verdict("the lines before the one that has no room", told.count("\n") == 2)
        write_lines("listing", ["create 0644 /b"])
        verdict("fewer blocks than it has", same_fault("fewer blocks", order, ["--blocks", "2"], "S7 Geometry") == "")
        verdict("no image is printed of", same_fault("no image", order, [], "P1 File missing", "missing") == "")
        os.remove("listing")
        verdict("no listing is printed of", same_fault("no listing", order, [], "P1 File listing") == "")
        write_lines("listing", ["create 0644 /b", "no such line"])
        verdict("a wrong line prints nothing", same_fault("a line that means nothing", order, [], "P2 Listing line 2") == "")
        write_lines("listing", ["create 0644 /b"])
        verdict("nothing is changed", cuts(order, ["--tail"])[0] == 0 and read("image") == image)
    status, told, _ = run("cuts", "--update", *options_of("<"), "listing")
    verdict("no image is given", (status, told) == (2, ""))


if __name__ == "__main__":
    sys.exit(run_all((lines_of_updates, blank_blocks, nothing, refused)))
