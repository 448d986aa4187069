"""Images that `build` and `append` write, judged by the program's readers and by the tools of mtd-utils."""
import itertools
import os
import random
import re
import stat
import subprocess

import tree
from judging import compare, dumped, filled, produce, run, test
from listing import Changes, building, plain

FLASH = 4 << 20
KINDS = tuple(itertools.product(("little", "big"), (8192, 65536, 131072)))
PAGES = (4096, 8192, 16384)


def geometry(order, block):
    return ["--block", str(block), "--endian", order]


def pages_of(block):
    """The pages that a block holds, with its marker and the fields of a node."""
    return [page for page in PAGES if page + 80 <= block]


def lines_of(file, lines):
    with open(file, "w") as out:
        out.writelines(line + "\n" for line in lines)


def operations(lines):
    return sum(line.split(" ")[0] not in ("time", "owner") for line in lines)


def accepted(what, words, lines, out):
    """Runs `build` or `append` by these lines. The number of nodes, or nothing where not all were accepted."""
    place = os.path.dirname(out)
    lines_of(os.path.join(place, "lines"), lines)
    got, told, errors = run(*words, place=place)
    line = re.fullmatch(rb"accepted (\d+) nodes (\d+) bytes (\d+)\n", told)
    fine = got == 0 and not errors and line and int(line[1]) == operations(lines)
    test(f"{what}: accepted", [] if fine else [f"status {got}: {told.decode()}{errors}"])
    return int(line[2]) if line else None


def counted(what, image, order, block, nodes):
    """jffs2dump sees this many nodes and no fault."""
    seen, faults = dumped(image, block, order)
    test(f"{what}: jffs2dump", faults + ([f"{seen} nodes, wanted {nodes}"] if seen != nodes else []))


def reader_line(path, shown):
    """What jffs2reader shows of an object: as the size of a file the length of its first node's data, which is 0."""
    facts = os.lstat(path)
    kind, name = stat.S_IFMT(facts.st_mode), b"%s " % shown
    size, uid, gid = 0, facts.st_uid % 2**16, facts.st_gid % 2**16
    if kind == stat.S_IFDIR:
        name = shown + b"/"
    elif kind == stat.S_IFLNK:
        size, name = facts.st_size, b"%s  -> %s" % (shown, os.readlink(path))
    return b"%s 1    %-8d %-8d %9d %s" % (stat.filemode(facts.st_mode).encode(), uid, gid, size, name)


def seen_by_reader(what, image, block, folder):
    """jffs2reader lists all names with mode and owner. Names may have line feeds: all lines are compared, whatever they are."""
    wanted = []
    for path, folders, names in os.walk(folder):
        for name in folders + names:
            below = os.path.join(path, name)
            wanted.append(reader_line(below, b"/" + os.path.relpath(below, folder)))
    out = subprocess.run(["jffs2reader", "-r", "-d", "/", filled(image, block)], capture_output=True).stdout
    told, told_wanted = sorted(out.split(b"\n")), sorted(b"\n".join(wanted + [b""]).split(b"\n"))
    only = [repr(line) for line in told if line not in told_wanted] + ["missing: %r" % line for line in told_wanted if line not in told]
    test(f"{what}: jffs2reader", only or ([] if told == told_wanted else ["other counts of the same lines"]))


def build(folder, place, parts):
    """The whole folder by a listing, in both orders, by three sizes of blocks and of pages."""
    lines = building(folder, parts)
    image = os.path.join(place, "built")
    for order, block, page in ((order, block, page) for order, block in KINDS for page in pages_of(block)):
        what, words = f"build {order} {block} by pages of {page}", geometry(order, block)
        flash = [*words, "--blocks", str(FLASH // block), "--page", str(page)]
        nodes = accepted(what, ["build", *flash, "lines", image], lines, image)
        if nodes is None:
            continue
        compare(what, words, image, folder)
        counted(what, image, order, block, nodes)
        if order == "little":  # it has no other
            seen_by_reader(what, image, block, folder)


def change(folder, parts):
    """Operations of every kind on what make() of tree.py made: the lines, after the folder was changed by them."""
    numbers, changes = random.Random(2), Changes(folder, parts)
    changes.make(0o2750, b"/added")
    changes.make(0o4640, b"/added/two pages", numbers.randbytes(10000))
    changes.make(0o600, b"/added/" + b"z" * 254, b"")
    changes.symlink(b"/added/way", b"../sizes/4096\n")
    changes.link(b"/links/first", b"/added/first")
    changes.link(b"/links/link0", b"/added/link")
    changes.rename(b"/sizes/8193", b"/names/moved \\ here")
    changes.rename(b"/deep/d0", b"/added/d0")
    changes.rename(b"/names/two words", b"/names/two  words")
    changes.rename(b"/links/link1", b"/link1")
    changes.remove(b"/sizes/5")
    changes.remove(b"/third")
    changes.remove(b"/links/link2")
    changes.remove(b"/empty", folder=True)
    changes.make(0o700, b"/sizes/5")
    changes.truncate(b"/sizes/65536", 5000)
    changes.truncate(b"/sizes/4095", 20001)
    changes.truncate(b"/sizes/4097", 0)
    changes.truncate(b"/sizes/ones", 0)
    changes.truncate(b"/sizes/ones", 9000)
    changes.write(b"/sizes/100000", 40000, numbers.randbytes(9000))
    changes.write(b"/sizes/sparse", 6000, b"amid")
    changes.write(b"/names/moved \\ here", 4095, b"\xff\x00")
    changes.write(b"/sizes/0", 5000, b"far")
    changes.write(b"/links/second", 6, b", and more")
    changes.write(b"/sizes/1", 0, b"")
    changes.remove(b"/many/file7")
    changes.rename(b"/many/file8", b"/many/file7")
    return changes.done()


def extended(what, base, order, block, lines, changed, page=PAGES[0]):
    """Extends an image by the lines, and compares it with the changed folder. The new image, or nothing."""
    out, words = os.path.join(os.path.dirname(base), "extended"), geometry(order, block)
    before, _ = dumped(base, block, order)
    flash = [*words, "--blocks", str(FLASH // block), "--page", str(page)]
    nodes = accepted(what, ["append", *flash, base, "lines", out], lines, out)
    if nodes is not None:
        compare(what, words, out, changed)
        counted(what, out, order, block, before + nodes)
        return out
    return None


def bases(folder, place, order, block):
    """Images of mkfs.jffs2, padded or not, with clean markers or without, and what sumtool makes of them: a name and a file."""
    image = os.path.join(place, "base")
    side = "-l" if order == "little" else "-b"
    for pad, marks in itertools.product(((), ("-p",)), ((), ("-n",))):
        options = [side, "-e", f"{block // 1024}KiB", *pad, *marks]
        produce(image, folder, *options)
        yield " ".join(options), image
        subprocess.run(["sumtool", *options, "-i", image, "-o", image + ".sums"], check=True, capture_output=True)
        yield "sumtool " + " ".join(options), image + ".sums"


def append(folder, changed, sayable, place, parts):
    """Images of mkfs.jffs2, as they are and through sumtool, and one of `build`, each extended by one listing."""
    whole, lines = building(sayable, parts), change(changed, parts)
    sayable_changed = copied(changed, b"sayable_changed")
    plain(sayable_changed)
    built = os.path.join(place, "built")
    for order, block in KINDS:
        for name, image in bases(folder, place, order, block):
            extended("append to " + name, image, order, block, lines, changed)
        what = f"{order} {block}"
        accepted("build " + what, ["build", *geometry(order, block), "--blocks", str(FLASH // block), "lines", built], whole, built)
        for page in pages_of(block):
            told = f"append to build {what} by pages of {page}"
            out = extended(told, built, order, block, lines, sayable_changed, page)
            if out and order == "little":
                seen_by_reader(told, out, block, sayable_changed)


def copied(folder, name):
    """A copy of a folder beside it, with times, owners, devices and hard links."""
    copy = os.path.join(os.path.dirname(folder), name)
    subprocess.run(["cp", "-a", folder, copy], check=True)
    return copy
