#!/usr/bin/env python3
"""Tries a listing of `put` and `remove-if` again after each place where writing may stop, until it is done.

Usage: tests/retry.py [PROGRAM]. `build`, `append` and `update` write a listing that may be tried again: its `put` lines replace
files or make them, its `remove-if` lines take names away. Writing stops at each node's last byte, one byte before it, and at
random, and what is left is mounted: each path shows the old file or the new one, whole, or no file where there was none, and all
others what they showed. Then the same listing is tried again on what is left, with another stop, and so on until a try is not
stopped: that shows all that the listing says, and one more try changes no path. The files are those of the plain model of
tests/put_model.py. Then what `put` and `remove-if` refuse. The last line is 'N passed, M failed'.
"""
import random
import re
import subprocess
import sys

import put_model
import update_model
from cuts import TREE, Tree, hexed
from groups import BLOCK, ORDERS, PROGRAM, options_of, read, run, run_all, verdict, write, write_lines

BLOCKS = 48
BASE = TREE + [
    "link /t /d/t",
    "symlink /s d/a",
    "mkdir 0700 /empty",
    "create 0644 /u",
    "fifo 0600 /p",
]
PARTS = {
    "new": bytes.fromhex(hexed(2, 9000)),
    "text": b"the new text, a line of it.\n" * 300,
    "small": b"small\n",
    "none": b"",
    "page": bytes.fromhex(hexed(3, 4096)),
}
# on the base: files that are there and that are not, one that has a further name, a symlink and a FIFO that are taken over
ROWS = {
    "a new file": ["time 9", "put 0600 /n new"],
    "an old file": ["time 9", "owner 7 8", "put 0644 /d/a text"],
    "many": [
        "time 9", "owner 1 1", "put 4755 /d/a new", "put 0644 /t text", "put 0600 /s small", "put 0444 /p none", "remove-if /u",
        "remove-if /empty", "remove-if /missing", "put 0644 /d/b page", "remove-if /d/t", "put 0644 /d/t small",
    ],
    "twice in one listing": ["put 0644 /t text", "put 0600 /t small", "remove-if /t", "put 0640 /t none", "remove-if /d/a"],
}
FIRST = ["put 0600 /n new", "put 0644 /m text", "remove-if /n", "put 0600 /n small", "remove-if /none"]


def loaded():
    """The files that the listings name, in this folder."""
    for name, data in PARTS.items():
        write(name, data)


def after(*listings, page=4096):
    """The file systems after each step of the last of the listings, from before its first one on."""
    tree, states = Tree(), []
    for lines in listings:
        states = [shown_of(tree)]
        for step in put_model.steps_of(tree, lines, page):
            step()
            states.append(shown_of(tree))
    return states


def shown_of(tree):
    """What each path shows: the object's number does not count, except that two names are one."""
    files, names = dict(put_model.files_of(tree)), {}
    for path, (*_, number) in files.items():
        names.setdefault(number, []).append(path)
    return {path: (*fact[:6], tuple(names[fact[6]])) for path, fact in files.items()}


def told_by(image, words):
    """What each path of an image shows, by `ls` and `cat`."""
    write("seen", image)
    status, out, errors = run("ls", *words, "seen")
    if status != 0:
        return {"error": errors}
    rows = [line.split(" -> ")[0].split(" ") + [line.partition(" -> ")[2]] for line in out.splitlines()]
    names, shown = {}, {}
    for *_, number, path, _ in rows:
        names.setdefault(number, []).append(path)
    for kind, mode, uid, gid, _, mtime, number, path, target in rows:
        body = target.replace("\\x2f", "/").encode()
        if kind == "-":
            body = subprocess.run([PROGRAM, "cat", *words, "seen", path], stdin=subprocess.DEVNULL, capture_output=True, check=False).stdout
        shown[path] = (kind, int(mode, 8), int(uid), int(gid), int(mtime), body, tuple(names[number]))
    return shown


# ---- one try: what writes the listing to an image, and what a stop leaves

class Way:
    """A command that writes: how it is run, how its output is read, and where a stop may be."""

    def __init__(self, command, order, page=4096, compress=False):
        self.command, self.order, self.size = command, order, BLOCK if page == 4096 else 32768
        self.page, self.compress = page, compress
        self.reading = options_of(order, self.size) + (["--decompress"] if compress or command == "update" else [])

    def __str__(self):
        return f"{self.command} {ORDERS[self.order]} --page {self.page}{' --compress' if self.compress else ''}"

    def write(self, image, lines):
        """What the command tells that writes the listing to an image, and what it makes."""
        write_lines("listing", lines)
        write("image", image)
        words = [*options_of(self.order, self.size), "--blocks", str(BLOCKS), "--page", str(self.page)]
        if self.command == "build" and not image:
            done = run("build", *words, *(["--compress"] if self.compress else []), "listing", "out")
        elif self.command == "update":
            done = run("update", *words, "image", "listing", "out")
        else:
            done = run("append", *words, *(["--decompress"] if self.compress else []), "image", "listing", "out")
        return done, read("out") if done[0] == 0 else None

    def row(self, image):
        """The blocks that this way writes to, each with the place from which on."""
        row = list(update_model.openings(image, self.size, BLOCKS, self.order))
        if self.command == "update":
            return row
        free = {number for number, _ in row}
        first = next((k for k in range(BLOCKS) if all(number in free for number in range(k, BLOCKS))), BLOCKS)
        return [(number, at) for number, at in row if number >= first]

    def left(self, image, nodes, count, cut=None):
        """What is left where writing stopped in so many nodes, the last of which has only `cut` bytes."""
        made = update_model.with_nodes(image, nodes[:count], self.size, self.order, cut)
        return made if self.command == "update" else made[: self.end(nodes[:count], cut, len(image))]

    def end(self, nodes, cut, least):
        if not nodes:
            return least
        address, length, _ = nodes[-1]
        return address + (length if cut is None else cut)


def tries(way, image, lines, states):
    """What a try tells, and its nodes, if what it makes shows the last of the states."""
    done, out = way.write(image, lines)
    if out is None:
        return done, None
    nodes = list(update_model.nodes_in(out, way.row(image), way.size, way.order))
    return done, nodes if told_by(out, way.reading) == states[-1] else None


def is_old_or_new(found, base, states):
    """Whether each path shows what it showed before the listing, or what a step of it made, whole; and no path is another one."""
    others = found.keys() - base.keys() - set().union(*states)
    paths = base.keys() | found.keys()
    return not others and all(any(found.get(path) == state.get(path) for state in (base, *states)) for path in paths)


def each_stop(about, way, base, lines, before):
    """A stop at each node's end and one byte before it, and a whole try on what is left."""
    states = after(*before, lines, page=way.page)
    done, nodes = tries(way, base, lines, states)
    verdict(f"{about}: what the listing says is written: {done[2]}", nodes is not None and len(nodes) == len(states) - 1)
    for count, (_, length, data) in enumerate(nodes or [], 1):
        for cut in (length - 1, length):
            left = way.left(base, nodes, count, cut)
            # a node stands from its last byte on that is not 0xFF
            stands = data[:cut].ljust(length, b"\xff") == data
            verdict(f"{about}: a stop in node {count} at {cut}", told_by(left, way.reading) == states[count if stands else count - 1])
            again, out = way.write(left, lines)
            fine = out is not None and told_by(out, way.reading) == states[-1]
            verdict(f"{about}: tried again after a stop in node {count} at {cut}: {again[2]}", fine)
    return states


def until_done(about, way, base, lines, states, seed):
    """Stops at random, one try after another, until one is not stopped; then one more try."""
    chance, image = random.Random(f"retry {seed}"), base
    first, last = states[0], states[-1]
    for count in range(6):
        done, out = way.write(image, lines)
        verdict(f"{about}: try {count + 1}: {done[2]}", out is not None)
        if out is None:
            return
        nodes = list(update_model.nodes_in(out, way.row(image), way.size, way.order))
        if count < 5 and nodes:
            stop = chance.randrange(1, len(nodes) + 1)
            image = way.left(image, nodes, stop, chance.randrange(nodes[stop - 1][1]))
            found = told_by(image, way.reading)
            verdict(f"{about}: after stop {count + 1}", is_old_or_new(found, first, states))
        else:
            image = out
    verdict(f"{about}: after the last try", told_by(image, way.reading) == last)
    done, out = way.write(image, lines)
    verdict(f"{about}: one more try", out is not None and told_by(out, way.reading) == last)


def base_of(way):
    """The image of the base, as this way meets it."""
    write_lines("base.txt", BASE)
    words = [*options_of(way.order, way.size), "--page", str(way.page)]
    run("build", *words, "--blocks", "8", *(["--compress"] if way.compress else []), "base.txt", "base")
    return read("base")


def ways():
    for order in "<>":
        yield Way("append", order)
        yield Way("update", order)
    yield Way("append", "<", 8192)
    yield Way("update", ">", 4096, True)


def on_a_base():
    loaded()
    for way in ways():
        base = base_of(way)
        for about, lines in ROWS.items():
            states = each_stop(f"{about}, {way}", way, base, lines, [BASE])
            for seed in range(3):
                until_done(f"{about}, {way}, {seed}", way, base, lines, states, f"{about} {seed}")


def from_nothing():
    """`build`, stopped, and then `append` of the same listing to what is left."""
    loaded()
    for order in "<>":
        for compress in (False, True):
            way = Way("build", order, 4096, compress)
            states = each_stop(f"from nothing, {way}", way, b"", FIRST, [])
            for seed in range(5):
                until_done(f"from nothing, {way}, {seed}", way, b"", FIRST, states, seed)


# ---- what is refused, and lines that are none

def refused():
    loaded()
    way = Way("append", "<")
    base = base_of(way)
    write("image", base)
    for lines, fault in (
        (["put 0600 /d small"], "S1 Refused O5 Exists"),
        (["put 0600 / small"], "S1 Refused O1 BadPath"),
        (["put 0600 /no/n small"], "S1 Refused O3 NotFound"),
        (["put 0600 /t/n small"], "S1 Refused O4 NotDirectory"),
        (["put 0600 /" + "n" * 255 + " small"], "S1 Refused O2 NameTooLong"),
        (["put 10000 /n small"], "S1 Refused O10 BadMode"),
        (["put 10000 /t small"], "S1 Refused O10 BadMode"),
        (["remove-if /d"], "S1 Refused O7 NotEmpty"),
        (["remove-if /" + "n" * 255], "S1 Refused O2 NameTooLong"),
        (["remove-if /"], "S1 Refused O1 BadPath"),
        (["remove-if /no/n"], "S1 Refused O3 NotFound"),
        (["remove-if /t/n"], "S1 Refused O4 NotDirectory"),
    ):
        (status, told, said), _ = way.write(base, lines)
        verdict(f"{lines}: {said}", (status, told) == (1, "") and re.match(rf"jffs2_image: {fault} line 1\b", said))
    for lines in (["put 0600 /n"], ["put /n small"], ["put 0600 /n small more"], ["put 99 /n small"], ["remove-if"], ["remove-if /n more"], ["removeif /n"]):
        (status, told, said), _ = way.write(base, lines)
        verdict(f"{lines}: {said}", (status, told) == (1, "") and said.startswith("jffs2_image: P2 Listing line 1\n"))
    (status, told, said), _ = way.write(base, ["put 0600 /n missing"])
    verdict(f"a file that is not there: {said}", (status, told) == (1, "") and said.startswith("jffs2_image: P1 File missing"))
    (status, told, said), out = way.write(base, ["remove-if /none"])
    # the base is there, up to where writing would go on
    verdict("nothing to remove", (status, told, said) == (0, "accepted 1 nodes 0 bytes 0\n", "") and out.rstrip(b"\xff") == base.rstrip(b"\xff"))


if __name__ == "__main__":
    sys.exit(run_all((on_a_base, from_nothing, refused)))
