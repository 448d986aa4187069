#!/usr/bin/env python3
"""Compares the gaps that `damage` prints of damaged images of mkfs.jffs2 with the bytes that are lost: see gaps.sh, which starts it."""
import collections
import itertools
import os
import random
import re
import shutil
import stat
import sys
import sysconfig
import tempfile

import decompress
import folders
import info
import tree
import writing
from judging import COUNTS, ended, run, test

sys.path.append(os.path.dirname(os.path.dirname(os.path.abspath(__file__))))
import decompress_model as model  # noqa: E402
import hostile_model  # noqa: E402

TREES = {"etc": "/etc", "share": "/usr/share", "python": sysconfig.get_paths()["stdlib"]}
BYTES = int(os.environ.get("KIB", "1024")) << 10
FILES, SYMLINKS, GREATEST = 250, 50, BYTES // 16  # of a folder at most, and the bytes of one file
METHODS = {"none": ("default", "-m", "none"), "zlib": ("zlib",), "lzo": ("lzo",), "rtime": ("rtime",)}
BLOCKS = (16, 128)
GAP = re.compile(r"gap ino (\d+) bytes (\d+) to (\d+) (?:in (/.*)|and (\d+) more paths)")
TOTAL = re.compile(r"total damaged \d+ paths \d+ missing (\d+) gaps (\d+)")
SOUND = b"total damaged 0 paths 0 missing 0 gaps 0\n"
NAMED = 16  # the paths that a gap prints
Told = collections.namedtuple("Told", "gaps missing")
Sound = collections.namedtuple("Sound", "words data nodes named folder")
seen = collections.Counter()


# ---- folders

def is_taken(path):
    """Whether it is a file that everyone may read, and not too long, or a symlink, and comes back."""
    is_ = os.lstat(path)
    is_file = stat.S_ISREG(is_.st_mode) and is_.st_mode & stat.S_IROTH and is_.st_size <= GREATEST
    is_symlink = stat.S_ISLNK(is_.st_mode) and is_.st_size <= 254
    return (is_file or is_symlink) and len(os.path.basename(path)) <= 254 and folders.can_come_back(path, 65535)


def taken_below(top):
    """The files and symlinks below a folder, without directories that are not open to everyone, and packages that were installed."""
    found = []
    for path, below, names in os.walk(top):
        found += [os.path.join(path, name) for name in names + below if is_taken(os.path.join(path, name))]
        below[:] = [name for name in below if name != b"site-packages" and os.lstat(os.path.join(path, name)).st_mode & 5 == 5]
    return sorted(found)


def copied(top, folder, chance):
    """A copy of some files and symlinks below a folder, chosen by chance, each at its path."""
    paths, left = taken_below(top), BYTES
    chance.shuffle(paths)
    symlinks = [path for path in paths if os.path.islink(path)]
    files = [path for path in paths if not os.path.islink(path)]
    for path in symlinks[:SYMLINKS] + files[:FILES]:
        size = os.lstat(path).st_size
        if size <= left:
            left -= size
            place = os.path.join(folder, os.path.relpath(path, top))
            os.makedirs(os.path.dirname(place), exist_ok=True)
            shutil.copy2(path, place, follow_symlinks=False)


def named_again(folder, chance):
    """Gives the longest file more names than a gap prints, in the folder itself, and some others one more."""
    files = {path: held for path, held in folders.facts(folder)[0].items() if held[0] == stat.S_IFREG}
    longest = max(files, key=lambda path: len(files[path][4]))
    for place in range(NAMED + 4):
        os.link(folder + longest, os.path.join(folder, b"name %d" % place))
    for path in chance.sample(sorted(files.keys() - {longest}), 12):
        os.link(folder + path, folder + path + b".again")


def files_in(folder):
    """Of each regular file below a folder the bytes, and the first path of the same object, by its path as it is printed."""
    def shown(path):
        return "/".join(tree.escaped(part) for part in path.split(b"/"))

    found = folders.facts(folder)[0].items()
    return {shown(path): (held[4], shown(held[5])) for path, held in found if held[0] == stat.S_IFREG}


# ---- nodes of a sound image, by the model

def nodes_in(data, block, order):
    """The address, the length, the kind and the fields of each node. No data are decompressed."""
    sign = decompress.ORDERS[order][1]
    for at, what, held in model.nodes_of(data, block, sign):
        yield at, hostile_model.word(data, at + 4, sign), *model.looked(what, held, lambda ino: False)


def files_named(nodes):
    """Of each regular file, by its path, the number, and the addresses of the entries on the way."""
    entries, kinds = collections.defaultdict(list), {}
    for at, _, what, held in nodes:
        if what == "entry":
            entries[held[0]].append((held[5], held[2], at))
        elif what == "inode":
            kinds[held[0]] = held[2] >> 12

    def below(ino, path, places):
        for name, number, at in entries[ino]:
            here, way = f"{path}/{tree.escaped(name)}", (*places, at)
            if kinds[number] == 8:
                yield here, (number, way)
            elif kinds[number] == 4:
                yield from below(number, here, way)

    return dict(below(1, "", ()))


def joined(ranges):
    """Ranges in order, those that touch as one."""
    found = []
    for start, end in sorted(ranges):
        if found and found[-1][1] >= start:
            found[-1] = (found[-1][0], max(end, found[-1][1]))
        elif start < end:
            found.append((start, end))
    return found


def lost_by(nodes, sound, data):
    """The ranges of each object whose nodes were changed, and the addresses of these nodes."""
    lost = [node for node in nodes if sound[node[0] : node[0] + node[1]] != data[node[0] : node[0] + node[1]]]
    ranges = collections.defaultdict(list)
    for _, _, what, held in lost:
        if what == "inode":
            ranges[held[0]].append((held[9], held[9] + held[10]))
    return {ino: joined(held) for ino, held in ranges.items()}, {node[0] for node in lost}


# ---- damage

def some(nodes, chance):
    """One node of any kind, or several."""
    return chance.sample(nodes, chance.choice((1, 5, 25)))


def flipped(data, nodes, _, chance):
    """A bit anywhere in some nodes."""
    for at, length, *_ in some(nodes, chance):
        data[at + chance.randrange(length)] ^= 1 << chance.randrange(8)


def beheaded(data, nodes, _, chance):
    """Zeros over the headers of some nodes."""
    for at, *_ in some(nodes, chance):
        data[at : at + 12] = bytes(12)


def erased(data, _, block, chance):
    """A block as flash is erased."""
    at = chance.randrange(0, len(data), block)
    data[at : at + block] = b"\xff" * len(data[at : at + block])


# ---- what is told

def told(what, words, image):
    """The gaps that `damage` prints, each with its paths and the count of the others, and the paths without an object."""
    status, out, errors = run("damage", *words, image)
    lines, gaps, faults = out.decode().splitlines(), collections.defaultdict(lambda: ([], [])), []
    for line in lines:
        if found := GAP.fullmatch(line):
            paths, more = gaps[tuple(map(int, found.groups()[:3]))]
            (paths if found[4] else more).append(found[4] or int(found[5]))
        elif line.startswith("gap "):
            faults.append(f"no line of a gap: {line}")
    missing = [line.split(" ") for line in lines if line.startswith("missing ")]
    total = TOTAL.fullmatch(lines[-1]) if lines else None
    if not total or (int(total[1]), int(total[2])) != (len(missing), len(gaps)):
        faults.append(f"status {status}: {lines[-1:]} {errors}, {len(missing)} missing, {len(gaps)} gaps")
    if status != (3 if gaps or len(lines) > 1 or errors else 0):
        faults.append(f"status {status}: {lines[:1]} {errors}")
    test(f"{what}: damage", faults)
    return Told(gaps, {words[1] for words in missing if words[1].startswith("/")})


def extracted(what, words, image):
    """The files that `extract` makes of an image, as files_in has them."""
    made = image + ".made"
    status, out, errors = run("extract", *words, image, made)
    test(f"{what}: extract", [] if status in (0, 3) and not out else [f"status {status}: {errors}"])
    files = files_in(os.fsencode(made)) if os.path.isdir(made) else {}
    shutil.rmtree(made, ignore_errors=True)
    return files


# ---- what it has to be

def faults_of_paths(gaps, files):
    """Where a gap does not name the files of one object, sixteen at most, and count the others."""
    names = collections.defaultdict(set)
    for path, (_, first) in files.items():
        names[first].add(path)
    for gap, (paths, more) in gaps.items():
        own = names[files[paths[0]][1]] if paths and paths[0] in files else set()
        counts = len(paths) == min(len(own), NAMED) and more == [len(own) - NAMED][: len(own) > NAMED]
        if not own or not counts or len(set(paths)) != len(paths) or not own.issuperset(paths):
            yield f"{gap} in {paths} and {more}, of {sorted(own)}"


def gaps_of_objects(gaps, files):
    """The gaps of each object, by its first path, in order."""
    own = collections.defaultdict(list)
    for gap, (paths, _) in sorted(gaps.items()):
        for first in {files[path][1] for path in paths if path in files}:
            own[first].append(gap)
    return own


def first_difference(got, wanted):
    """Where contents differ, or None."""
    if len(got) != len(wanted):
        return f"{len(got)} bytes, wanted {len(wanted)}"
    return next((f"byte {i}" for i in range(len(got)) if got[i] != wanted[i]), None) if got != wanted else None


def with_zeros(content, ranges):
    """The content, with zeros in these ranges."""
    for start, end in ranges:
        content = content[:start] + bytes(end - start) + content[end:]
    return content


def faults_of_bytes(own, files, folder):
    """Where a file is not that of the folder, with zeros in its gaps."""
    for path, (content, first) in files.items():
        fault = first_difference(content, with_zeros(folder[path][0], [gap[1:] for gap in own[first]]))
        if fault:
            yield f"{path}: {fault}, gaps {own[first]}"


def faults_of_nodes(own, files, named, ranges):
    """Where the gaps of an object are not the bytes of its nodes that were lost."""
    for first in {first for _, first in files.values()}:
        ino = named[first][0]
        wanted = [(ino, *gap) for gap in ranges.get(ino, [])]
        if own[first] != wanted:
            yield f"{first}: {own[first]}, wanted {wanted}"


def faults_of_names(files, named, lost, missing):
    """Where a file is not there, though no name on its way is lost and nothing there is told as missing; or is there, and one is."""
    for path, (_, way) in named.items():
        parts = path.split("/")
        is_told = any("/".join(parts[:count]) in missing for count in range(2, len(parts) + 1))
        is_lost = not lost.isdisjoint(way)
        if is_lost or is_told if path in files else not is_lost and not is_told:
            yield f"{path} is {'there' if path in files else 'not there'}"


def judge(what, sound, image, data):
    """Judges a damaged image: its gaps against the files that are extracted, and against the nodes that were lost."""
    files, shown = extracted(what, sound.words, image), told(what, sound.words, image)
    ranges, lost = lost_by(sound.nodes, sound.data, data)
    own = gaps_of_objects(shown.gaps, files)
    test(f"{what}: paths", list(faults_of_paths(shown.gaps, files)))
    test(f"{what}: bytes", list(faults_of_bytes(own, files, sound.folder)))
    test(f"{what}: lost nodes", list(faults_of_nodes(own, files, sound.named, ranges)))
    test(f"{what}: lost names", list(faults_of_names(files, sound.named, lost, shown.missing)))
    count(sound.folder, files, shown.gaps, own)


def count(folder, files, gaps, own):
    """Counts what was seen."""
    seen["damaged images"] += 1
    seen["of them with a gap"] += bool(gaps)
    seen["gaps"] += len(gaps)
    seen["gaps of more than sixteen paths"] += sum(bool(more) for _, more in gaps.values())
    seen["files"] += len(files)
    seen["files with a gap"] += sum(bool(own[first]) for _, first in files.values())
    seen["files of other bytes"] += sum(content != folder[path][0] for path, (content, _) in files.items())
    seen["files that are not there"] += len(folder.keys() - files.keys())


# ---- images

def images(folder, image):
    """An image of each method, order and size of blocks, as mkfs.jffs2 makes it and through sumtool."""
    for method, order, block in itertools.product(METHODS, decompress.ORDERS, BLOCKS):
        name, *more = METHODS[method]
        what = decompress.produced(folder, image, name, order, block, *more)
        yield what, image, order, block * 1024
        yield f"{what}, sumtool", decompress.summed(image, order, block), order, block * 1024


def judge_sound(what, folder, path, order, block):
    """A sound image has no gap, and the files of the folder: it, by the model."""
    words, data = ["--decompress", *writing.geometry(order, block)], info.read(path)
    ran = run("damage", *words, path)
    test(f"{what}: sound", [] if ran == (0, SOUND, "") else [f"{ran}"])
    nodes = list(nodes_in(data, block, order))
    named = files_named(nodes)
    test(f"{what}: files", [] if named.keys() == folder.keys() else ["other files than in the folder"])
    return Sound(words, data, nodes, named, folder)


def judge_image(name, made, folder, kinds, chance):
    """Judges an image of a folder, sound and with damage of two kinds."""
    what, path, order, block = made
    what = f"{name}, {what}"
    sound = judge_sound(what, folder, path, order, block)
    for _ in range(2):
        kind, data = next(kinds), bytearray(sound.data)
        kind(data, sound.nodes, block, chance)
        judge(f"{what}, {kind.__name__}", sound, info.written(path + ".damaged", data), data)


def chosen(place, chance):
    """The copies of the folders, each with the ways of damage by turns."""
    for turn, (name, top) in enumerate(TREES.items()):
        folder = os.path.join(place, name).encode()
        os.mkdir(folder)
        copied(os.fsencode(top), folder, chance)
        named_again(folder, chance)
        yield name, folder, files_in(folder), itertools.islice(itertools.cycle((flipped, beheaded, erased)), turn, None)


def main():
    chance = random.Random(71)
    with tempfile.TemporaryDirectory(prefix="gaps-") as place:
        trees = list(chosen(place, chance))
        for images_alike in zip(*(images(folder, os.path.join(place, f"{name}.img")) for name, folder, *_ in trees)):
            for (name, _, folder, kinds), made in zip(trees, images_alike):
                judge_image(name, made, folder, kinds, chance)
            print(f"{made[0]}: {COUNTS[0]} passed, {COUNTS[1]} failed so far", flush=True)
    print(", ".join(f"{number} {kind}" for kind, number in seen.items()))
    test("gaps were seen", [] if seen["gaps"] and seen["gaps of more than sixteen paths"] else ["none"])
    return ended()


if __name__ == "__main__":
    sys.exit(main())
