#!/usr/bin/env python3
"""Flips a bit in each byte of small images, and compares what `damage` of the finished program tells with what `diff` tells.

Usage: tests/damage.py [PROGRAM]. Three images, in both orders, and with --decompress three of mkfs.jffs2 (tests/data), each of
another method, to which nodes are added that cover others. Of each byte that is flipped: a node of damaged data hides exactly
the paths at which `diff` of the two images has a line, or nothing where it has none; a damaged name is told by its fields, as the
report of the sound image has them; any other damaged node is unknown; what is no part of a node, or was its header, is not told.
The names without objects are as many as `check` has. The gaps are those that a model finds byte by byte. Then images with many damaged nodes of few files, with many names of one, and
with directories that lie in one another: what is told is what a model has that tries each place of each node. Then images in which
directories have several names, at random: each path that `ls` lists is told, and a model that walks as it does has the same. The
last line is 'N passed, M failed'.
"""
import collections
import random
import re
import sys

import compressed_images as images
import decompress_model
import hostile_model
from groups import PROGRAM, ROOT, run_all, verdict, write

import os
import subprocess

LISTINGS = (
    "mkdir 0755 /etc\ncreate 0644 /etc/name\nwrite /etc/name 0 61626364\nwrite /etc/name 2 7879\n"
    "link /etc/name /etc/n\\x20m\n",
    "create 0644 /a\nwrite /a 0 0102030405060708\nwrite /a 0 1112\nwrite /a 6 2122232425\n"
    "symlink /l a\nrename /a /b\n",
    "mkdir 0700 /d\nmkdir 0700 /d/e\ncreate 0600 /d/e/f\nwrite /d/e/f 3 313233\nremove /d/e/f\n"
    "create 0640 /g\nattr 0600 1 2 3 4 /g\nwrite /g 0 99\n",
)


def run(*words):
    return subprocess.run([PROGRAM, *words], stdin=subprocess.DEVNULL, capture_output=True, check=False)


def nodes_of(name, options):
    """The address, the kind, the length and the line of each node of an image, by its report."""
    nodes = []
    for line in run("check", "--scan", *options, name).stdout.decode().splitlines():
        found = re.match(r"([0-9a-f]{8}) (entry|inode) (\d+) (.*)", line)
        if found:
            nodes.append((int(found[1], 16), found[2], length_of(found[2], found[4]), found[4]))
    return nodes


def packed_nodes_of(image, order):
    """The same by the model, of compressed nodes too: their fields as those of any other, and the length that they have."""
    for at, what, held in hostile_model.report(image, 8192, order)[1]:
        if what in decompress_model.KINDS:
            plain, fields = decompress_model.expanded(what, held)
            length = 68 + len(held[2]) if what == "compressed" else decompress_model.length_of(what, held)
            yield at, plain, length, hostile_model.told(at, length, plain, fields).split(" ", 3)[3]


def changed_paths(before, after, options):
    """The paths at which `diff` has a line."""
    paths = set()
    for line in run("diff", *options, before, after).stdout.decode().splitlines():
        if line.startswith("* "):
            paths.add(line[2:].rpartition(" at ")[0])
        else:
            paths.add(line.split(" ")[6])
    return paths


def length_of(kind, line):
    """The length of a node without the bytes that fill it up to whole words."""
    if kind == "inode":
        return 68 + int(re.search(r" data (\d+) ", line)[1])
    return 40 + len(re.sub(r"\\x..", "x", line.partition(" name ")[2]))


def wanted_of(place, nodes):
    """What is damaged where this byte is flipped: the node's address, and the check that it fails."""
    for addr, kind, length, line in nodes:
        at = place - addr
        if not 0 <= at < length:
            continue
        if at < 12:
            return None
        if kind == "inode" and (at >= 68 or 60 <= at < 64):
            return (addr, "data-crc", line) if length > 68 else None
        if kind == "entry" and at >= 36:
            return (addr, "name-crc", line)
        return (addr, "node-crc", line)
    return None


def gap_lines(nodes):
    """The lines of gaps, by the nodes of an image: each byte of each file is looked for in each node."""
    objects, names = hostile_model.tree(nodes)
    entries = {parent: dict(held) for parent, held in names.items()}
    folders = entered_paths(entries, {ino for ino, held in objects.items() if held[2] >> 12 == 4})
    ranges = [(held[0], held[9], held[9] + held[10]) for _, what, held in nodes if what == "inode"]
    lines = []
    for ino, held in sorted(objects.items()):
        size = held[5] if held[2] >> 12 == 8 else 0
        bare = [i for i in range(size) if not any(own == ino and start <= i < end for own, start, end in ranges)]
        paths = ["/"] if ino == 1 else []
        named = ((p, n) for p in sorted(entries) if p in folders for n, i in sorted(entries[p].items()) if i == ino)
        paths += [f"{folders[p]}/{hostile_model.escaped(n)}" for p, n in named]
        for start in (i for i in bare if i - 1 not in bare):
            end = next(i for i in range(start, size + 1) if i not in bare)
            front = f"gap ino {ino} bytes {start} to {end}"
            lines += [f"{front} in {path}" for path in paths[:16]]
            lines += [f"{front} and {len(paths) - 16} more paths"] if len(paths) > 16 else []
    return lines


def has_gaps(told, nodes):
    """Whether the lines of gaps are those of the model, and come behind all others but the last."""
    lines = gap_lines(nodes)
    return [line for line in told if line.startswith("gap ")] == lines == told[len(told) - 1 - len(lines) : -1]


def beside_gaps(told):
    """The lines that are not of gaps."""
    return [line for line in told if not line.startswith("gap ")]


def is_right(place, nodes, told, changed):
    wanted = wanted_of(place, nodes)
    lines = [line for line in told if not line.startswith(("missing ", "gap ", "total "))]
    if wanted is None:
        return not lines
    addr, check, fields = wanted
    if check == "node-crc":
        return lines == [f"{addr:08x} node-crc unknown"]
    number = dict(re.findall(r"(pino|version|ino|offset|data) (\d+)", fields))
    if check == "name-crc":
        start = f"{addr:08x} name-crc pino {number['pino']} version {number['version']} ino {number['ino']} lost"
        return len(lines) == 1 and re.fullmatch(re.escape(start) + r"( in /\S*)?", lines[0]) is not None
    end = int(number["offset"]) + int(number["data"])
    start = f"{addr:08x} data-crc ino {number['ino']} version {number['version']} bytes {number['offset']} to {end} "
    if not all(line.startswith(start) for line in lines):
        return False
    ends = [line[len(start) :] for line in lines]
    if ends in (["hides nothing"], ["has no path"]):
        return not changed
    return {end.removeprefix("hides ") for end in ends} == changed and len(ends) == len(changed)


def noted(errors):
    """How many findings the note on standard error counts, which is the only line there."""
    lines = errors.decode().splitlines()
    return int(lines[0].split()[2]) if len(lines) == 1 else -1 if lines else 0


def is_told_by_cat(told, options, found):
    """Whether `cat` of each file counts the bytes of its gaps, of an image with so many findings."""
    bare = collections.Counter()
    for line in told:
        gap = re.fullmatch(r"gap ino \d+ bytes (\d+) to (\d+) in (.*)", line)
        if gap:
            bare[gap[3]] += int(gap[2]) - int(gap[1])
    for path, count in bare.items():
        done, note = run("cat", "--strict", *options, "flipped.img", path), hostile_model.missing_note(count, found)
        said = b"".join(line for line in done.stderr.splitlines(keepends=True) if b"that no node has" in line)
        if done.returncode != (3 if note else 0) or said != note:
            return False
    return True


def flips(number, order):
    options = ["--block", "8192", "--endian", order]
    write("listing", LISTINGS[number])
    done = run("build", "--blocks", "1", *options, "listing", "sound.img")
    verdict(f"build of image {number}", done.returncode == 0)
    with open("sound.img", "rb") as file:
        sound = file.read()
    nodes = nodes_of("sound.img", options)
    for place, byte in enumerate(sound):
        write("flipped.img", sound[:place] + bytes((byte ^ 1 << place % 8,)) + sound[place + 1 :])
        done = run("damage", *options, "flipped.img")
        told = done.stdout.decode().splitlines()
        missing = [line for line in told if line.startswith("missing ")]
        report = run("check", *options, "flipped.img").stdout.decode().splitlines()
        dangling = sum(line.startswith("dangling ") for line in report)
        right = is_right(place, nodes, told, changed_paths("sound.img", "flipped.img", options))
        with open("flipped.img", "rb") as file:
            right = right and has_gaps(told, hostile_model.report(file.read(), 8192, "<" if order == "little" else ">")[1])
        counted = len(missing) == dangling and told[-1:] == [total_of(told)]
        found = int(next(line for line in report if line.startswith("total ")).split()[-1])
        status = done.returncode == (3 if found or len(told) > 1 else 0) and noted(done.stderr) == found
        right = right and is_told_by_cat(told, options, found)
        verdict(f"image {number} {order}, byte {place}: {told}", right and counted and status)


def is_counted(told, flipped, order, done):
    """Whether the names without an object are told, the findings noted, and the status is right, by the model."""
    nodes, fault = decompress_model.through(flipped, 8192, order)
    objects, names = hostile_model.tree(nodes)
    dangling = sum(ino not in objects for held in names.values() for _, ino in held)
    missing = [line for line in told if line.startswith("missing ")]
    found = hostile_model.report(flipped, 8192, order)[3]
    counted = not fault and len(missing) == dangling and told[-1:] == [total_of(told)] and has_gaps(told, nodes)
    return counted and done.returncode == (3 if found or len(told) > 1 else 0) and noted(done.stderr) == found


def covering(method, order):
    """Compressed nodes of the files of an image of mkfs.jffs2: the first part of one and a piece of its second, all of another in two
    nodes, one that is cut, and one that had no data."""
    make = images.Maker(order)
    nodes = (
        make.packed(method, 4, 4, b"A" * 4096, 0, 9000),
        make.packed(method, 4, 5, b"B" * 1000, 5000, 9000),
        make.packed(method, 5, 2, b"C" * 600, 0, 1092),
        make.packed(method, 5, 3, b"D" * 492, 600, 1092),
        make.packed(method, 7, 2, b"E" * 20, 0, 20),
        make.packed(method, 2, 2, b"F" * 10, 0, 10),
    )
    return b"".join(node + b"\xff" * (-len(node) % 4) for node in nodes)


def packed_flips(method, order, number):
    """The same with --decompress, of an image of mkfs.jffs2, in which no node covers another one, and of nodes that do."""
    options = ["--decompress", "--block", "8192", "--endian", "little" if order == "<" else "big"]
    with open(os.path.join(ROOT, "tests", "data", f"small_{method}.hex"), encoding="ascii") as file:
        sound = bytes.fromhex(file.read()) + covering(number, order)
    write("sound.img", sound)
    nodes = list(packed_nodes_of(sound, order))
    for place, byte in enumerate(sound):
        flipped = sound[:place] + bytes((byte ^ 1 << place % 8,)) + sound[place + 1 :]
        write("flipped.img", flipped)
        done = run("damage", *options, "flipped.img")
        told = done.stdout.decode().splitlines()
        right = is_right(place, nodes, told, changed_paths("sound.img", "flipped.img", options))
        right = right and is_told_by_cat(told, options, hostile_model.report(flipped, 8192, order)[3])
        verdict(f"{method}, byte {place}: {told}", right and is_counted(told, flipped, order, done))


def total_of(told):
    gaps = {re.match(r"gap ino \d+ bytes \d+ to \d+", line)[0] for line in told if line.startswith("gap ")}
    damaged = {line[:8] for line in told if not line.startswith(("missing ", "gap ", "total "))}
    more = (re.fullmatch(r"[^g].* and (\d+) more paths", line) for line in told)
    paths = sum(" hides /" in line for line in told) + sum(int(found[1]) for found in more if found)
    missing = sum(line.startswith("missing ") for line in told)
    return f"total damaged {len(damaged)} paths {paths} missing {missing} gaps {len(gaps)}"


def little_images():
    flips(0, "little")
    flips(1, "little")


def big_image():
    flips(2, "big")


def packed_images():
    packed_flips("zlib", "<", images.ZLIB)
    packed_flips("rtime", ">", images.RTIME)
    packed_flips("lzo", "<", images.LZO)


def damaged_at(node):
    """The node, of damaged data."""
    return node[:68] + bytes((node[68] ^ 1,)) + node[69:]


def told_of(name, order, nodes):
    """What is told of an image of these nodes, and the address of each."""
    places, front = [], 0
    for node in nodes:
        places.append(front)
        front += -len(node) // 4 * -4
    image = b"".join(node + b"\xff" * (-len(node) % 4) for node in nodes).ljust(65536, b"\xff")
    write(name, image)
    told = run("damage", "--block", "65536", "--endian", order, name).stdout.decode().splitlines()
    seen = hostile_model.report(image, 65536, "<" if order == "little" else ">")[1]
    verdict(f"{name}, {order}, gaps: {told}", has_gaps(told, seen))
    return told, places


def is_missed(lost, sound):
    """Whether the object is another without this node: of each node its number, its version, its range and its size."""
    ino, version, start, end, _ = lost
    others = [node for node in sound if node[0] == ino and node[1] >= version]
    sizes = [node[4] for node in sorted(sound, key=lambda node: node[1]) if node[0] == ino]
    size = sizes[-1] if sizes else 0
    covered = all(any(o[2] <= place < o[3] for o in others) for place in range(start, min(end, size)))
    return not (others and covered)


def crowded(seed, order):
    """Many nodes of three files, one of which has no name, half of them damaged."""
    chance, make = random.Random(seed), images.Maker("<" if order == "little" else ">")
    names = {2: ["/a", "/b"], 3: ["/c"], 4: []}
    nodes = [make.entry(1, 1, 2, b"a"), make.entry(1, 2, 2, b"b"), make.entry(1, 3, 3, b"c")]
    versions = {ino: chance.sample(range(1, 200), 40) for ino in names}
    sound, lost = [], {}
    for place in range(chance.randrange(4, 60)):
        ino, start, length = chance.choice((2, 2, 2, 3, 4)), chance.randrange(0, 30), chance.randrange(1, 12)
        node = (ino, versions[ino].pop() if versions[ino] else 200 + place, start, start + length, chance.randrange(0, 50))
        nodes.append(make.inode(node[0], node[1], bytes(length), node[4], offset=start))
        if chance.random() < 0.5:
            lost[len(nodes) - 1] = node
            nodes[-1] = damaged_at(nodes[-1])
        else:
            sound.append(node)
    told, places = told_of("crowded.img", order, nodes)
    wanted = []
    for index, node in lost.items():
        front = f"{places[index]:08x} data-crc ino {node[0]} version {node[1]} bytes {node[2]} to {node[3]}"
        if not is_missed(node, sound):
            wanted.append(f"{front} hides nothing")
        elif names[node[0]]:
            wanted += [f"{front} hides {path}" for path in names[node[0]]]
        else:
            wanted.append(f"{front} has no path")
    held = {node[0] for node in sound}
    wanted += [f"missing {path} ino {ino}" for ino in (2, 3) if ino not in held for path in names[ino]]
    verdict(f"crowded image {seed}, {order}: {told}", beside_gaps(told)[:-1] == wanted and told[-1:] == [total_of(told)])


def crowded_images():
    for seed in range(150):
        crowded(seed, ("little", "big")[seed % 2])


def many_names(count, order):
    """A file of many names, one of which lies in no directory, and another file, with damaged nodes of both."""
    make = images.Maker("<" if order == "little" else ">")
    nodes = [make.entry(1, place + 1, 2, b"n%03d" % place) for place in range(count)]
    nodes += [make.entry(9, 1, 2, b"astray"), make.entry(1, 1000, 3, b"other"), make.inode(2, 1, b"x", 1), make.inode(3, 1, b"x", 1)]
    front = len(nodes)
    nodes += [damaged_at(make.inode(ino, 2 + place, b"y", 1)) for place, ino in enumerate((2, 3, 2))]
    told, places = told_of("names.img", order, nodes)
    wanted = []
    for place, ino in enumerate((2, 3, 2)):
        start = f"{places[front + place]:08x} data-crc ino {ino} version {2 + place} bytes 0 to 1"
        paths = ["/other"] if ino == 3 else [f"/n{name:03d}" for name in range(count)]
        wanted += [f"{start} hides {path}" for path in paths[:16]]
        if len(paths) > 16:
            wanted.append(f"{start} and {len(paths) - 16} more paths")
        elif not paths:
            wanted.append(f"{start} has no path")
    total = f"total damaged 3 paths {2 * count + 1} missing 0 gaps 0"
    verdict(f"file of {count} names, {order}: {told}", told == [*wanted, total] and total == total_of(told))


def named_images():
    for count in (0, 1, 15, 16, 17, 18, 200):
        many_names(count, "little")
        many_names(count, "big")


def rings(length, order):
    """Directories that lie in one another, one outside that lies in them, one that has no name, and a file in each."""
    make = images.Maker("<" if order == "little" else ">")
    nodes, wanted = [], []
    parents = [2 + (place - 1) % length for place in range(length)] + [2, None, 1]
    for place, parent in enumerate(parents):
        folder, file = 2 + place, 100 + place
        if parent is not None:
            nodes.append(make.entry(parent, place + 1, folder, b"d%d" % place))
        nodes += [make.inode(folder, 1, b"", 0, mode=0o40755), make.entry(folder, 50, file, b"f"), make.inode(file, 1, b"x", 1)]
        damaged = damaged_at(make.inode(file, 2, b"y", 1))
        nodes.append(damaged)
        wanted.append((len(nodes) - 1, file, f"hides /d{place}/f" if parent == 1 else "has no path"))
    told, places = told_of("ring.img", order, nodes)
    lines = [f"{places[index]:08x} data-crc ino {file} version 2 bytes 0 to 1 {end}" for index, file, end in wanted]
    verdict(f"ring of {length}, {order}: {told}", beside_gaps(told)[:-1] == lines and told[-1:] == [total_of(told)])


def ring_images():
    for length in (1, 2, 3, 7, 40):
        rings(length, "little")
        rings(length, "big")


def entered_paths(entries, folders):
    """The path by which a walk enters each directory: name by name in byte order, what lies in one before what lies beside it."""
    paths, left = {1: ""}, [(1, entry) for entry in sorted(entries.get(1, {}).items(), reverse=True)]
    while left:
        parent, (name, ino) = left.pop()
        if ino in folders and ino not in paths:
            paths[ino] = f"{paths[parent]}/{hostile_model.escaped(name)}"
            left += [(ino, entry) for entry in sorted(entries.get(ino, {}).items(), reverse=True)]
    return paths


def tangled(seed, order):
    """Directories with names anywhere, some of which lie in what is no directory or are damaged; damaged nodes of what lies in them."""
    chance, make = random.Random(seed), images.Maker("<" if order == "little" else ">")
    count = chance.randrange(2, 9)
    folders = {ino for ino in range(2, 2 + count) if chance.random() < 0.8}
    nodes = [make.inode(ino, 1, b"", 0, mode=0o40755 if ino in folders else 0o100644) for ino in range(2, 2 + count)]
    entries, wanted, versions = {}, {}, 0
    for ino in [*range(1, 2 + count), *range(100, 103)] + [chance.randrange(2, 2 + count) for _ in range(count)]:
        for _ in range(chance.choice((0, 0, 1)) if ino == 1 else chance.choice((0, 1, 1, 2))):
            parent, name, versions = chance.choice((1, *range(2, 3 + count))), b"%c" % chance.randrange(97, 107), versions + 1
            node = make.entry(parent, versions, ino, name)
            if chance.random() < 0.15:
                wanted[len(nodes)] = f"name-crc pino {parent} version {versions} ino {ino} lost"
                node = node[:40] + bytes((node[40] ^ 1,)) + node[41:]
            else:
                entries.setdefault(parent, {})[name] = ino
            nodes.append(node)
    paths = entered_paths(entries, folders)
    for ino in (1, *sorted(folders), 100, 101, 102):
        mode = 0o100644 if ino >= 100 else 0o40755
        nodes += [make.inode(ino, 2, b"x", 1, mode=mode), damaged_at(make.inode(ino, 3, b"y", 1, mode=mode))]
        start = f"data-crc ino {ino} version 3 bytes 0 to 1"
        found = ["/"] if ino == 1 else []
        found += [f"{paths[p]}/{n.decode()}" for p in sorted(entries) if p in paths for n, i in sorted(entries[p].items()) if i == ino]
        wanted[len(nodes) - 1] = [f"{start} hides {path}" for path in found] or [f"{start} has no path"]
    told, places = told_of("tangled.img", order, nodes)
    lines = []
    for index, line in sorted(wanted.items()):
        if isinstance(line, str):
            parent = int(line.split()[2])
            line = [line + (f" in {paths[parent] or '/'}" if parent in paths else "")]
        lines += [f"{places[index]:08x} {end}" for end in line]
    listed = run("ls", "--block", "65536", "--endian", order, "tangled.img").stdout.decode().splitlines()
    rows = [line.removesuffix(" (again)").split(" ") for line in listed]
    seen = sorted((row[6], row[7]) for row in rows if int(row[6]) in (1, *folders, 100, 101, 102))
    shown = sorted((line.split()[3], line.split(" hides ")[1]) for line in told if " hides /" in line)
    verdict(f"tangled image {seed}, {order}: {told}", beside_gaps(told)[:-1] == lines and told[-1:] == [total_of(told)])
    verdict(f"tangled image {seed}, {order}, as ls: {listed}", shown == seen)


def tangled_images():
    for seed in range(200):
        tangled(seed, ("little", "big")[seed % 2])


if __name__ == "__main__":
    sys.exit(run_all((little_images, big_image, packed_images, crowded_images, named_images, ring_images, tangled_images)))
