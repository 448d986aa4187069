#!/usr/bin/env python3
"""Boots Linux, lets it write on chips of NAND flash, and compares what the program shows of dumps with spare bytes with what it shows
of those without, and with Linux: see spare.sh."""
import os
import re
import shutil
import subprocess
import sys

import compact
import folders
import linux
import tars
import through
import tree
from judging import PROGRAM, ended, run, test

# of each layout what nandsim is told of the chip, and its erase blocks
SMALL = "first_id_byte=0x20 second_id_byte=0x33"
LARGE = "first_id_byte=0x20 second_id_byte=0xa2 third_id_byte=0x00 fourth_id_byte="
CHIPS = {
    "512+16": (SMALL, 16384),
    "2048+64": (LARGE + "0x15", 131072),
    "4096+128": (LARGE + "0x26", 262144),
    "4096+224": ("id_bytes=0x98,0xdc,0x90,0x26,0x76,0x15,0x01,0x08 bch=8", 262144),
}
LAYOUTS = os.environ.get("LAYOUTS", "").split() or list(CHIPS)
FLASH = 4 << 20  # a part of each chip
TOOLS = ("nanddump", "nandwrite", "flash_erase")
LIBRARY = re.compile(r"(/\S+) \(0x")
LISTING, INFO, AUTO = ("ls", "--decompress"), ("info",), ("ls", "--auto")
COMMANDS = (
    ("check", "--decompress"), ("check", "--scan"), LISTING, ("damage", "--decompress"), ("map",), ("history",), INFO,
    ("extract", "--decompress"), AUTO,
)
MARKER = re.compile(r"jffs2: CLEANMARKER node found at 0x([0-9a-f]{8}) has totlen 0xc != normal 0x0")
WAYS = {"pack": (), "squeezed": ("--compress",)}


# ---- what the guest is given

def give_tools(given):
    """The tools of mtd-utils, and the libraries that they need."""
    place = os.path.join(given, "tools")
    os.mkdir(place)
    for name in TOOLS:
        path = shutil.which(name)
        needed = subprocess.run(["ldd", path], check=True, capture_output=True, text=True).stdout
        for file in (path, *LIBRARY.findall(needed)):
            shutil.copy(file, place)


def folder_in(place):
    """A small folder, with a large file."""
    folder = os.path.join(place, "folder").encode()
    os.mkdir(folder)
    through.make(folder)
    tree.write(os.path.join(folder, b"large"), linux.text(200000))
    return folder


def pack(block, place):
    """Images of the folder for chips with blocks of this size, in a folder of their own."""
    made = os.path.join(place, str(block))
    os.mkdir(made)
    flash = ["--block", str(block), "--blocks", str(FLASH // block)]
    for way, words in WAYS.items():
        status, told, errors = run("pack", *words, *flash, "--quiet", "folder", os.path.join(made, way), place=place)
        print(f"{way}, blocks of {block}: {told.decode().strip()}", flush=True)
        test(f"{way}, blocks of {block}", [] if status == 0 and not errors else [f"status {status}: {told} {errors}"])


def inputs(place, given):
    """The chips, the images for them, and the tools; the folder of the images."""
    compact.inputs(given, None)
    give_tools(given)
    spare = os.path.join(given, "spare")
    os.mkdir(spare)
    folder = folder_in(place)
    for block in sorted({CHIPS[layout][1] for layout in LAYOUTS}):
        pack(block, place)
    for layout in LAYOUTS:
        words, block = CHIPS[layout]
        tree.write(os.path.join(spare, layout + ".chip"), f"{words} parts={FLASH // block}".encode())
        for way in WAYS:
            shutil.copy(os.path.join(place, str(block), way), os.path.join(spare, f"{layout}-{way}.img"))
    return folder


# ---- what came of it

def read(name):
    with open(name, "rb") as file:
        return file.read()


def said(got, what):
    """What the kernel said of JFFS2, but for what it says at each mount."""
    lines = [line.split("] ", 1)[-1] for line in read(os.path.join(got, what + ".log")).decode().splitlines() if "jffs2" in line]
    return [line for line in lines if "complete building xattr subsystem" not in line]


def dumps_agree(what, layout, got):
    """A dump with spare bytes is the other one, with some behind each page."""
    page, spare = map(int, layout.split("+"))
    raw, plain = (read(os.path.join(got, what + end)) for end in (".raw", ".plain"))
    starts = range(0, len(raw), page + spare)
    pages = b"".join(raw[at : at + page] for at in starts)
    used = sum(raw[at + page : at + page + spare].strip(b"\xff") != b"" for at in starts)
    print(f"{what}: {len(plain)} bytes, {len(raw)} with spare ones; {used} of {len(starts)} pages have other spare bytes than 0xFF")
    fine = pages == plain and len(plain) == FLASH and len(raw) == FLASH // page * (page + spare) and used
    test(f"{what}: both dumps say the same", [] if fine else ["they do not"])


def ran(folder, command, *words):
    """What a command does of the file in a folder: status, output, notes, and what is extracted."""
    words = [*command, *words, "flash", *(["tree"] if command[0] == "extract" else [])]
    done = subprocess.run([PROGRAM, *words], stdin=subprocess.DEVNULL, capture_output=True, timeout=600, cwd=folder)
    made = os.path.join(folder, "tree").encode()
    return done.returncode, done.stdout, done.stderr, folders.facts(made)[0] if command[0] == "extract" else None


def options(command, block):
    """The size of blocks, for a command that does not find it."""
    return [] if command[0] == "info" or "--auto" in command else ["--block", str(block)]


def laid(what, got):
    """Both dumps by the same name, in folders of their own."""
    places = [os.path.join(got, what + end) for end in (".raw.place", ".plain.place")]
    for place, end in zip(places, (".raw", ".plain")):
        os.mkdir(place)
        os.link(os.path.join(got, what + end), os.path.join(place, "flash"))
    return places


def commands_agree(what, layout, got, commands=(LISTING,)):
    """Each command does of the dump with spare bytes what it does of the other. The folder of the former, and what came of the latter."""
    block, right = CHIPS[layout][1], {}
    raw, plain = laid(what, got)
    for command in commands:
        words = options(command, block)
        found = ran(raw, command, "--oob", layout, *words)
        wanted = right[command] = ran(plain, command, *words)
        print(f"{what}: {' '.join(command)}: status {wanted[0]}, {len(wanted[1])} bytes, and {len(wanted[2])} of notes", flush=True)
        pairs = zip(("status", "output", "notes", "tree"), found, wanted)
        test(f"{what}: {' '.join(command)}", [f"{name}: {one!r:.150}, wanted {other!r:.150}" for name, one, other in pairs if one != other])
    return raw, right


def layout_is_found(what, layout, raw, other):
    """`info` finds the layout of the dump with spare bytes, and none of the other."""
    line = "\nspare {1} after each {0}\n".format(*layout.split("+")).encode()
    status, told, notes, _ = ran(raw, INFO)
    test(f"{what}: info finds the layout", [] if (status, notes) == (0, b"") and told.endswith(line) else [f"status {status}: {told} {notes}"])
    test(f"{what}: info finds none", [] if other[0] == 0 and b"spare" not in other[1] else [f"{other}"])


def auto_finds_it(layout, raw, right):
    """`--auto` leaves the spare bytes out by itself, and says so."""
    line = "jffs2_image: note: left out: {1} spare bytes after each {0}\n".format(*layout.split("+")).encode()
    found, (status, told, notes, _) = ran(raw, AUTO), right[AUTO]
    test(f"{layout}: --auto finds the layout", [] if found[:3] == (status, told, line + notes) else [f"{found}"])


def option_is_needed(what, block, raw, right):
    """Without the option another tree is shown."""
    status, told, notes, _ = ran(raw, LISTING, *options(LISTING, block))
    first = notes.decode().partition("\n")[0]
    print(f"{what}: without --oob: status {status}, {len(told.splitlines())} of {len(right[1].splitlines())} lines; {first}")
    test(f"{what}: the option is needed", [] if right[0] == 0 and told != right[1] else ["without it the same is shown"])


def mounted(what, got, end):
    """The tree that Linux showed, as a folder, or nothing."""
    tar = os.path.join(got, what + end)
    if os.path.exists(tar):
        return linux.unpacked(tar)
    test(what, ["Linux did not mount it"])
    return None


def extracted(what, layout, got, folder, again=()):
    """`extract` of the dump with spare bytes makes the tree of Linux."""
    words = ["--oob", layout, "--block", str(CHIPS[layout][1]), "--decompress"]
    linux.extracted(what, words, os.path.join(got, what + ".raw"), folder, again)


def judge_dump(layout, got):
    """A pair of dumps of what Linux wrote: all commands agree on both, and with Linux."""
    dumps_agree(layout, layout, got)
    same = read(os.path.join(got, layout + ".img")) == read(os.path.join(got, layout + ".plain"))
    test(f"{layout}: nanddump has the bytes of the device", [] if same else ["it has others"])
    raw, right = commands_agree(layout, layout, got, COMMANDS)
    layout_is_found(layout, layout, raw, right[INFO])
    auto_finds_it(layout, raw, right)
    option_is_needed(layout, CHIPS[layout][1], raw, right[LISTING])
    folder = mounted(layout, got, ".again.tar")
    if not folder:
        return
    words = ["--block", str(CHIPS[layout][1]), "--decompress"]
    again, _ = linux.compare_tree(layout, words, os.path.join(got, layout + ".plain"), folder)
    extracted(layout, layout, got, folder, again)
    test(f"{layout}: kernel", [line for end in ("", ".again") for line in said(got, layout + end)])


def judge_image(what, layout, given, got, source):
    """An image that nandwrite put to a chip is there, and Linux shows the folder that it was made of."""
    image = read(os.path.join(given, "spare", what + ".img"))
    there = read(os.path.join(got, what + ".plain")) == image.ljust(FLASH, b"\xff")
    test(f"{what}: nandwrite put its bytes there", [] if there else ["others are there"])
    dumps_agree(what, layout, got)
    commands_agree(what, layout, got)
    folder = mounted(what, got, ".tar")
    if not folder:
        return
    trees = [linux.without_times(folders.facts(top, 65535)[0]) for top in (folder.encode(), source)]
    test(f"{what}: Linux shows the folder, {len(trees[1])} paths", folders.differences(*trees))
    extracted(what, layout, got, folder)
    # flash of NAND has its clean markers in the spare bytes
    marked = [MARKER.fullmatch(line) for line in said(got, what)]
    fine = all(marked) and [int(mark[1], 16) for mark in marked] == list(range(0, len(image), CHIPS[layout][1]))
    test(f"{what}: kernel", [] if fine else said(got, what))


def went_on(what, layout, got):
    """What Linux writes then is there after a new mount, and what was there before stays."""
    folder = mounted(f"{what}.more", got, ".again.tar")
    if not folder:
        return
    before, after = (tars.shown(os.path.join(got, what + end)) for end in (".tar", ".more.again.tar"))
    old = {path: fact for path, fact in after.items() if path != "/new" and not path.startswith("/new/")}
    test(f"{what}: what was there stays", tars.differences(old, before))
    new = len(after) - len(old)
    test(f"{what}: Linux wrote {new} paths more", [] if new > 100 else ["it wrote less"])
    dumps_agree(f"{what}.more", layout, got)
    commands_agree(f"{what}.more", layout, got)
    extracted(f"{what}.more", layout, got, folder)
    others = [line for end in (".more", ".more.again") for line in said(got, what + end) if not MARKER.fullmatch(line)]
    test(f"{what}.more: kernel", others)


def main():
    place = sys.argv[3]
    given, got = (os.path.join(place, "1", part) for part in ("given", "got"))
    source = inputs(place, given)
    linux.boot(os.path.dirname(given), given, got)
    for layout in LAYOUTS:
        judge_dump(layout, got)
        for way in WAYS:
            judge_image(f"{layout}-{way}", layout, given, got, source)
            went_on(f"{layout}-{way}", layout, got)
    return ended()


if __name__ == "__main__":
    sys.exit(main())
