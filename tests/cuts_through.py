#!/usr/bin/env python3
"""Cuts images where `cuts --compress` and `cuts --decompress` say that a form stands, and one byte before, and looks at what is left.

Usage: tests/cuts_through.py [PROGRAM]. The listings are those of tests/cuts.py and some with text, in both orders and two block sizes.
`cuts --compress` prints its lines, and `build --compress` makes the image; on an image of `compress`, whose blank blocks are its
last, `update` makes it (with --plain for `cuts --decompress` alone). With the bytes below a line's B, and erased flash behind
them, it must show through its compression the file system after the steps up to that line, and one byte earlier that after the
steps before it, by the plain model of tests/cuts.py. On images without compressed nodes `cuts --decompress` prints what `cuts`
prints. Then what is refused. The last line is 'N passed, M failed'.
"""
import random
import subprocess
import sys

from cuts import MADE, ROWS, Tree, hexed, laid
from groups import PROGRAM, read, run, run_all, verdict, write, write_lines

TEXT = (b"one line of text, and again one line of text.\n" * 250).hex()
WEAK = ["create 0644 /a", "write /a 0 bef98e24fe"]

# The page, the lines of a base, and the listing on it
TEXTS = [
    (4096, None, MADE + ["write /d/a 50 " + TEXT, "truncate /d/a 4200", "write /d/a 4000 " + hexed(2, 300) + "61" * 700]),
    (8192, MADE + ["write /d/a 0 " + TEXT], ["create 0600 /b", "write /b 10 " + TEXT, "rename /b /d/b", "write /d/a 7 " + "62" * 9000]),
    (4096, MADE + ["create 0600 /t", "write /t 0 " + TEXT], ["replace /t /d/a", "", "# more", "attr 0604 0 0 1 2 /d/a", "write /d/a 0 " + hexed(9, 6000)]),
]
MIXED = TEXTS + [(page, base, lines) for _, page, base, lines in ROWS]


def options_of(order, size):
    return ["--block", str(size), "--endian", order]


def sizes_of(page):
    """Two sizes of blocks that hold a page."""
    return (8192, 65536) if page == 4096 else (32768, 65536)


def shows(image, options, tree):
    """Whether an image shows this file system through its compression, with the bytes of its files."""
    write("shown", image)
    told = list(tree.lines())
    if run("ls", "--decompress", *options, "shown")[1].splitlines() != [line for line, _ in told]:
        return False
    files = [file for _, file in told if file]
    found = (subprocess.run([PROGRAM, "cat", "--decompress", *options, "shown", path], capture_output=True, check=False).stdout for path, _ in files)
    return all(data == body for data, (_, body) in zip(found, files))


def stopped(image, before, stands):
    """What is left of an image after a stop: the bytes below an address, and the base's behind it, or erased flash."""
    return image[:stands] + before[stands:].ljust(len(image) - stands, b"\xff")


def based(base, page, options, packed):
    """The file system of a base and its image, its data compressed or not, and the words that name it."""
    tree = Tree()
    if base is None:
        return tree, b"", []
    write_lines("base.txt", base)
    run("build", "--blocks", "16", "--page", str(page), *options, "base.txt", "base")
    if packed:
        run("compress", *options, "base", "base")
    for _, _, _, step in laid(tree, base, page, {"time": 0, "owner": (0, 0)}):
        step()
    return tree, read("base"), ["--on", "base"]


def told_of(text):
    """The nodes that are told, each by its address, its length, and the words of its line; and those of the last line."""
    lines = [line.split(" ") for line in text.splitlines()]
    return lines[:-1], lines[-1] if lines else []


def made(flash, options, compress, on):
    """The image that the listing makes."""
    if not on:
        return run("build", "--compress", *flash, "listing", "image")
    return run("update", *flash, *([] if compress else ["--plain"]), "base", "listing", "image")


def try_listing(about, order, size, page, base, lines, compress, packed):
    options = options_of(order, size)
    flash = ["--blocks", "16", "--page", str(page), *options]
    tree, before, on = based(base, page, options, packed)
    write_lines("listing", lines)
    done = run("cuts", *(["--compress"] if compress else ["--decompress"]), *flash, *on, "listing")
    nodes, last = told_of(done[1])
    verdict(f"{about}: cuts", (done[0], done[2], last[:1]) == (0, "", ["total"]), None)
    if done[0] or made(flash, options, compress, on)[0]:
        return verdict(f"{about}: the image", False)
    image = read("image")
    base_end = -(-len(before) // size) * size
    verdict(f"{about}: the ends", last[-6:] == ["from", f"{base_end:08x}", "to", f"{len(image):08x}", "weak", "0"])
    right, count = True, 0
    for line, step, steps, act in laid(tree, lines, page, {"time": 0, "owner": (0, 0)}):
        if len(nodes) <= count:
            break
        node = nodes[count]
        right = right and node[2:10] == ["line", str(line), "step", str(step), "of", str(steps), "stands", "from"]
        address, totlen, stands = int(node[0], 16), int(node[1]), int(node[10], 16)
        header = image[address : address + 8]
        right = right and int.from_bytes(header[4:8], order) == totlen and address < stands <= address + totlen
        right = right and shows(stopped(image, before, stands - 1), options, tree)
        act()
        right = right and shows(stopped(image, before, stands), options, tree)
        count += 1
    verdict(f"{about}: each stop", right)
    verdict(f"{about}: as many lines as steps", count == len(nodes) and last[4:5] == [str(count)])
    return [int(node[1]) for node in nodes]


def rows(compress, packed):
    for number, (page, base, lines) in enumerate(MIXED, 1):
        for order in ("little", "big"):
            for size in sizes_of(page):
                if base is not None or compress:
                    yield f"listing {number}, {order}, {size}", order, size, page, base, lines, compress, packed


def compressed():
    """`cuts --compress`, of an empty image or on one of `compress`."""
    shorter = 0
    for row in rows(True, True):
        lengths = try_listing(*row)
        _, order, size, page, base, lines, *_ = row
        options = options_of(order, size)
        on = ["--on", "base"] if base is not None else []
        plain, _ = told_of(run("cuts", "--decompress", "--blocks", "16", "--page", str(page), *options, *(on or ["--on", "empty"]), "listing")[1])
        verdict(f"{row[0]}: no form is longer", lengths is not None and all(n <= int(node[1]) for n, node in zip(lengths, plain)))
        shorter += lengths is not None and sum(lengths) < sum(int(node[1]) for node in plain)
    verdict("some forms are shorter", shorter >= 4 * len(TEXTS))


def decompressed():
    """`cuts --decompress` on images of `compress`."""
    for row in rows(False, True):
        try_listing(*row)


def the_same():
    """On an image without compressed nodes `cuts --decompress` prints what `cuts` prints, a weak node too."""
    for about, order, size, page, base, lines, *_ in rows(False, False):
        options = options_of(order, size)
        _, _, on = based(base, page, options, False)
        write_lines("listing", lines)
        words = ["--blocks", "16", "--page", str(page), *options, *on, "listing"]
        done = run("cuts", *words)
        verdict(f"{about}: as `cuts`", done[0] == 0 and run("cuts", "--decompress", *words) == done)
    for order in ("little", "big"):
        options = options_of(order, 8192)
        write_lines("listing", WEAK)
        plain = run("cuts", "--blocks", "2", *options, "listing")
        packed = run("cuts", "--compress", "--blocks", "2", *options, "listing")
        verdict(f"a weak node, {order}", plain[0] == 3 and "\nweak 0000007c at 68\n" in plain[1] and packed == plain)


def refused():
    write_lines("base.txt", MADE + ["write /d/a 0 " + TEXT])
    options = options_of("little", 8192)
    run("build", "--blocks", "8", *options, "base.txt", "base")
    run("compress", *options, "base", "base")
    for words in (["--compress", "--on", "base"], ["--decompress", "--on", "base"], ["--compress"]):
        write_lines("listing", ["create 0644 /b", "create 0644 /nowhere/b", "create 0644 /c"])
        status, told, said = run("cuts", *words, "--blocks", "16", *options, "listing")
        first = [line.split(" ")[2:6] for line in told.splitlines()] == [["line", "1", "step", "1"], ["line", "1", "step", "2"]]
        verdict(f"an operation that is refused, {' '.join(words)}", status == 1 and first and "line 2" in said)
        write_lines("listing", ["create 0644 /b", "write /b 0 " + random.Random(1).randbytes(40000).hex()])
        status, told, said = run("cuts", *words, "--blocks", "4", *options, "listing")
        verdict(f"no room, {' '.join(words)}", status == 1 and told.count("\n") == 2 and said.startswith("jffs2_image: S2 Full needed "))
        status, told, said = run("cuts", *words, "--blocks", "0", *options, "listing")
        verdict(f"no blocks, {' '.join(words)}", (status, told) == (1, "") and said.startswith("jffs2_image: S7 Geometry"))
        write_lines("listing", ["create 0644 /b", "no such line"])
        status, told, said = run("cuts", *words, "--blocks", "16", *options, "listing")
        verdict(f"a line that means nothing, {' '.join(words)}", (status, told) == (1, "") and "line 2" in said)
        status, told, said = run("cuts", *words, "--blocks", "16", *options, "missing")
        verdict(f"no listing, {' '.join(words)}", (status, told) == (1, "") and said.startswith("jffs2_image: P1 File missing\n"))
    status, told, said = run("cuts", "--decompress", "--on", "missing", "--blocks", "16", *options, "listing")
    verdict("no image", (status, told) == (1, "") and said.startswith("jffs2_image: P1 File missing\n"))
    write_lines("listing", ["create 0644 /b"])
    status, told, said = run("cuts", "--blocks", "16", *options, "--on", "base", "listing")
    verdict("a compressed image without the word", (status, told) == (1, "") and said.startswith("jffs2_image: M4 Compressed at "))
    before = read("base")
    verdict("nothing is changed", run("cuts", "--compress", "--blocks", "16", *options, "--on", "base", "listing")[0] == 0 and read("base") == before)


def start():
    """An empty image stands in the folder of the groups."""
    write("empty", b"")


if __name__ == "__main__":
    sys.exit(run_all((start, compressed, decompressed, the_same, refused)))
