#!/usr/bin/env python3
"""Runs each command that reads an image on dumps with spare bytes, with `--oob`, and on the image alone.

Usage: tests/spare.py [PROGRAM]. Of images of mkfs.jffs2 and of soups of nodes a dump is made: behind each page its spare bytes,
which are noise, and at the end a whole page, a short one, or one of which the spare bytes are cut off. What a command answers, prints,
notes and writes of the dump with `--oob` is what it does of the image, byte for byte, in the usual layouts and in odd ones. Without
`--oob` most dumps are not what they hold, and `--auto` finds the layout. Then wrong command lines.
The last line is 'N passed, M failed'.
"""
import os
import random
import re
import shutil
import subprocess
import sys

import compressed_images as images
from groups import BLOCK, PROGRAM, options_of, read, run, run_all, two_images, verdict, write, write_lines

LAYOUTS = (512, 16), (2048, 64), (4096, 128), (4096, 224), (1000, 7), (1, 3), (65536, 65536), (4, 0)
PRINTED = (["check"], ["check", "--shape", "--decompress"], ["check", "--scan"], ["ls"], ["ls", "--decompress"], ["damage", "--decompress"],
           ["map"], ["map", "--svg"], ["history"])
WRITTEN = ["decompress"], ["compress"], ["compact"], ["decompress", "--clashes", "higher"]


def dump_of(image, page, spare, chance, cut=0):
    """The pages with noise behind each, without the last bytes where they are cut off."""
    pages = [image[at:at + page] for at in range(0, len(image), page)]
    dump = b"".join(part + chance.randbytes(spare if len(part) == page else 0) for part in pages)
    return dump[:len(dump) - cut]


def layout_word(page, spare):
    return f"--oob={page}+{spare}"


def seen(words, *made):
    """What a run answers and writes; of files that it makes the bytes, if they are there."""
    for name in made:
        if os.path.exists(name):
            os.remove(name)
    done = run(*words)
    return done, [read(name) if os.path.exists(name) else None for name in made]


def is_same(about, image, dump, word, words, *made):
    """Whether a command does of the dump, with this word, what it does of the image."""
    write("image", image)
    plain = seen(words, *made)
    write("image", dump)
    verdict(f"{about}: {' '.join(words)}", seen([words[0], word, *words[1:]], *made) == plain)
    return plain


def small_images():
    """Images, with their order and the size of their blocks."""
    yield from images.of_mkfs()
    for about, image, order in images.soups_of_both(2, 12):
        yield about, image, order, BLOCK


def printed():
    """Each command that prints, in a usual layout and in an odd one."""
    chance = random.Random(72)
    for about, image, order, size in small_images():
        for page, spare in [chance.choice(LAYOUTS[:4]), chance.choice(LAYOUTS[4:])]:
            dump = dump_of(image, page, spare, chance)
            for words in PRINTED:
                is_same(f"{about} {page}+{spare}", image, dump, layout_word(page, spare), [*words, *options_of(order, size), "image"])
            is_same(f"{about} {page}+{spare}", image, dump, layout_word(page, spare), ["info", "image"])
            is_same(f"{about} {page}+{spare}", image, dump, layout_word(page, spare), ["ls", "--auto", "image"])


def written():
    """Each command that writes an image of one, and `extract`."""
    chance = random.Random(73)
    for about, image, order, size in small_images():
        page, spare = chance.choice(LAYOUTS[:5])
        dump, word = dump_of(image, page, spare, chance), layout_word(page, spare)
        for words in WRITTEN:
            is_same(about, image, dump, word, [*words, *options_of(order, size), "image", "made"], "made")
        files = []
        for data, more in (image, []), (dump, [word]):
            write("image", data)
            shutil.rmtree("tree", ignore_errors=True)
            files.append((run("extract", *more, "--decompress", "--quiet", *options_of(order, size), "image", "tree"), tree_of("tree")))
        verdict(f"{about}: extract", files[0] == files[1])


def tree_of(folder):
    """Each regular file below a folder, and its bytes."""
    return sorted((os.path.relpath(os.path.join(at, name), folder), read(os.path.join(at, name)))
                  for at, _, names in os.walk(folder) for name in names if os.path.isfile(os.path.join(at, name)) and not os.path.islink(os.path.join(at, name)))


def extended():
    """Commands that read a listing too, which has no spare bytes, however long it is."""
    write_lines("first", ["mkdir 0755 /a"])
    long = [f"mkdir 0755 /a/{n:03}" for n in range(200)]
    write_lines("more", long)
    assert run("build", "--blocks", "8", "first", "made")[0] == 0
    image, chance = read("made"), random.Random(74)
    for page, spare in LAYOUTS:
        dump, word = dump_of(image, page, spare, chance), layout_word(page, spare)
        about = f"listing {page}+{spare}"
        is_same(about, image, dump, word, ["append", "--blocks", "8", "image", "more", "out"], "out")
        is_same(about, image, dump, word, ["update", "--blocks", "8", "image", "more", "out"], "out")
        is_same(about, image, dump, word, ["cuts", "--blocks", "8", "--on", "image", "more"])
        status, _ = is_same(about, image, dump, word, ["cuts", "--update", "--blocks", "8", "--on", "image", "more"])
        verdict(f"{about}: it is foretold", status[0] == 0)


def compared():
    """Both images of `diff` have the layout; and `verify` has a folder too."""
    two_images(b"spare" * 1000)
    chance = random.Random(75)
    for page, spare in LAYOUTS:
        word = layout_word(page, spare)
        for name in "packed", "made":
            write(f"{name}.dump", dump_of(read(name), page, spare, chance))
        verdict(f"diff {word}", run("diff", word, "packed.dump", "made.dump") == run("diff", "packed", "made"))
        verdict(f"diff {word}: the first", run("diff", word, "made.dump", "packed.dump") == run("diff", "made", "packed"))
        verdict(f"verify {word}", run("verify", word, "--quiet", "packed.dump", "folder")[:2] == (0, ""))


def ends():
    """A last page that is short, or of which the spare bytes are cut off, in part or all; and no byte at all."""
    for about, image, order, size in small_images():
        image = image[:len(image) // 4096 * 4096]
        for page, spare in (2048, 64), (4096, 224):
            chance = random.Random(about)
            for cut in 1, spare - 1, spare:
                dump = dump_of(image, page, spare, chance, cut)
                is_same(f"{about}, {cut} cut off", image, dump, layout_word(page, spare), ["check", *options_of(order, size), "image"])
            short = image[:len(image) - page // 2 - 4]
            dump = dump_of(short, page, spare, chance)
            is_same(f"{about}, a short page", short, dump, layout_word(page, spare), ["check", "--scan", *options_of(order, size), "image"])
    for words in ["check"], ["info"], ["ls", "--auto"]:
        is_same("no byte", b"", b"", "--oob=2048+64", [*words, "image"])


def unlike():
    """Without `--oob`, and with another layout, something else is seen of most dumps."""
    chance, others, count = random.Random(76), 0, 0
    for about, image, order, size in images.of_mkfs():
        write("image", image)
        plain = run("ls", "--decompress", *options_of(order, size), "image")
        write("image", dump_of(image, 2048, 64, chance))
        for words in [], ["--oob=2048+60"], ["--oob=512+16"]:
            count, others = count + 1, others + (run("ls", "--decompress", *words, *options_of(order, size), "image") != plain)
    verdict(f"{others} of {count} are seen otherwise", others > count * 2 // 3)


def found():
    """With `--auto` the spare bytes that `info` finds are left out, and no others; but not by a command that writes an image."""
    chance, count = random.Random(78), 0
    for about, image, order, size in small_images():
        for page, spare in [(1, 0), *LAYOUTS[:4]]:
            write("image", dump_of(image, page, spare, chance))
            shown = re.search(r"^spare (\d+) after each (\d+)$", run("info", "image")[1], re.M)
            verdict(f"{about} {page}+{spare}: a layout", shown is None or (spare and (shown[2], shown[1]) == (str(page), str(spare))))
            word = [layout_word(shown[2], shown[1])] if shown else []
            note = f"jffs2_image: note: left out: {shown[1]} spare bytes after each {shown[2]}\n" if shown else ""
            count += len(word)
            for words in ["ls"], ["check"], ["damage"], ["map"]:
                status, out, said = run(*words, "--auto", *word, "image")
                verdict(f"{about} {page}+{spare}: {words[0]} --auto", run(*words, "--auto", "image") == (status, out, note + said))
            if shown:
                dump = read("image")
                done, _ = seen(["decompress", "--auto", "image", "made"], "made")
                verdict(f"{about} {page}+{spare}: decompress --auto", done[0] != 0 and "left out" not in done[2])
                done = run("decompress", "--auto", "--atomic", "image", "image")
                verdict(f"{about} {page}+{spare}: a dump is not replaced", done[0] == 1 and read("image") == dump)
    verdict(f"{count} layouts are found", count > 20)


def read_once():
    """Standard input may be a dump."""
    image = next(image for _, image, order, size in images.of_mkfs() if order == "<" and size == 65536)
    write("image", image)
    plain = run("ls", "--decompress", "image")
    dump = dump_of(image, 2048, 64, random.Random(77))
    done = subprocess.run([PROGRAM, "ls", "--decompress", "--oob", "2048+64", "-"], input=dump, capture_output=True, check=False)
    verdict("a dump on standard input", (done.returncode, done.stdout.decode(), done.stderr.decode()) == plain)


def unread():
    """A file that is not there, and a folder: the same fault as without the word."""
    os.makedirs("folder", exist_ok=True)
    for name in "absent", "folder":
        for words in ["ls"], ["check", "--scan"], ["info"], ["diff", name]:
            verdict(f"{words} {name}", run(words[0], "--oob=512+16", *words[1:], name) == run(*words, name))


def refused():
    """Wrong command lines."""
    for value in "64", "2048+", "+64", "0+64", "2048+65537", "65537+64", "2048+64+1", "2K+64", "-1+2", "":
        status, out, said = run("ls", f"--oob={value}", "image")
        wanted = f"error: invalid value '{value}' for '--oob <P+S>': wanted bytes of a page and spare ones behind it"
        verdict(f"--oob={value}", (status, out) == (2, "") and (said.startswith(wanted) or not value and "--oob" in said))
    status, out, said = run("cuts", "--oob=512+16", "--blocks", "8", "listing")
    verdict("cuts without --on", (status, out) == (2, "") and "--on <IMAGE>" in said)
    for words in ["build", "--blocks", "8", "listing", "out"], ["pack", "folder", "out"], ["listing", "folder"]:
        status, out, said = run(words[0], "--oob=512+16", *words[1:])
        verdict(f"{words[0]} --oob", (status, out) == (2, "") and said.startswith("error: unexpected argument '--oob' found"))


if __name__ == "__main__":
    sys.exit(run_all((printed, written, extended, compared, ends, unlike, found, read_once, unread, refused)))
