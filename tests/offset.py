#!/usr/bin/env python3
"""Runs each command that reads an image on parts of larger files, with `--offset` and `--length`, and on the part alone.

Usage: tests/offset.py [PROGRAM]. Before each image lie other bytes, or another image, and mostly behind it too. What a command answers,
prints, notes and writes of the file with `--offset A`, and with `--length N` if bytes lie behind, is what it does of the part that was cut
out of it, byte for byte. With `--oob` both count the bytes without the spare ones. The numbers are decimal, or begin with `0x`, or end with K
or M. A part that the file does not have is a fault. Then wrong command lines.
The last line is 'N passed, M failed'.
"""
import itertools
import os
import random
import shutil
import subprocess
import sys

import compressed_images as images
from groups import PROGRAM, options_of, read, run, run_all, two_images, verdict, write, write_lines
from spare import LAYOUTS, PRINTED, WRITTEN, dump_of, layout_word, seen, small_images, tree_of

# what is said of a file that does not have the part
ENDS_EARLY = "is shorter than --offset and --length say"
# the status of a file that is not read
UNREAD = 1
# the options, as an error names them
OFFSET, LENGTH = "--offset <", "--length <"
# how many bytes lie before the image, and behind it
PLACES = (4, 0), (4, 40), (1, 3), (0, 1), (12345, 678), (65536, 0), (2048, 4096), (3 << 10, 5 << 10), (1 << 20, 1 << 16)
KNOWN = ["check"], ["check", "--scan"], ["ls"], ["ls", "--auto"], ["info"], ["damage"], ["map"], ["history"]


def number_words(number):
    """Each form in which a number of bytes is read."""
    words = [str(number), f"0x{number:x}", f"0x{number:08X}", f"0{number}"]
    for letter, unit in ("K", 1 << 10), ("M", 1 << 20):
        if number % unit == 0:
            words += [f"{number // unit}{letter}", f"{number // unit}{letter}iB"]
    return words


def part_words(offset, length, chance):
    """The options that name a part, each number in one of its forms."""
    words = [f"--offset={chance.choice(number_words(offset))}"]
    return words + ([] if length is None else [f"--length={chance.choice(number_words(length))}"])


def noise(count, chance):
    """Other bytes: nodes of an image, as often as any."""
    if chance.random() < 0.5:
        return chance.randbytes(count)
    nodes = next(image for _, image, _, _ in images.of_mkfs())
    return (nodes * (count // len(nodes) + 1))[:count]


def file_around(image, before, behind, chance):
    """The image with other bytes before and behind it, and the words for it. If none are behind, a length may be told all the same."""
    length = len(image) if behind or image and chance.random() < 0.5 else None
    return noise(before, chance) + image + noise(behind, chance), part_words(before, length, chance)


def is_same(about, image, file, words, more, *made):
    """Whether a command does of the file, with these words, what it does of the image alone."""
    write("image", image)
    plain = seen(words, *made)
    write("image", file)
    verdict(f"{about} {' '.join(more)}: {' '.join(words)}", seen([words[0], *more, *words[1:]], *made) == plain)
    return plain


def printed():
    """Each command that prints, at two places."""
    chance = random.Random(92)
    for about, image, order, size in small_images():
        for before, behind in chance.sample(PLACES, 2):
            file, words = file_around(image, before, behind, chance)
            for command in PRINTED:
                is_same(about, image, file, [*command, *options_of(order, size), "image"], words)
            is_same(about, image, file, ["info", "image"], words)
            is_same(about, image, file, ["ls", "--auto", "image"], words)


def written():
    """Each command that writes an image of one, and `extract`."""
    chance = random.Random(93)
    for about, image, order, size in small_images():
        file, words = file_around(image, *chance.choice(PLACES), chance)
        for command in WRITTEN:
            is_same(about, image, file, [*command, *options_of(order, size), "image", "made"], words, "made")
        trees = []
        for data, more in (image, []), (file, words):
            write("image", data)
            shutil.rmtree("tree", ignore_errors=True)
            trees.append((run("extract", *more, "--decompress", "--quiet", *options_of(order, size), "image", "tree"), tree_of("tree")))
        verdict(f"{about}: extract {' '.join(words)}", trees[0] == trees[1])


def extended():
    """Commands that read a listing too, of which no part is cut out."""
    write_lines("first", ["mkdir 0755 /a"])
    write_lines("more", [f"mkdir 0755 /a/{n:03}" for n in range(200)])
    assert run("build", "--blocks", "8", "first", "made")[0] == 0
    image, chance = read("made"), random.Random(94)
    for before, behind in PLACES:
        file, words = file_around(image, before, behind, chance)
        for command in "append", "update":
            is_same("listing", image, file, [command, "--blocks", "8", "image", "more", "out"], words, "out")
        is_same("listing", image, file, ["cuts", "--blocks", "8", "--on", "image", "more"], words)
        status, _ = is_same("listing", image, file, ["cuts", "--update", "--blocks", "8", "--on", "image", "more"], words)
        verdict(f"listing {' '.join(words)}: it is foretold", status[0] == 0)


def compared():
    """The part is cut out of both images of `diff`; and `verify` has a folder too."""
    two_images(b"offset" * 1000)
    chance, length = random.Random(95), min(len(read("packed")), len(read("made")))
    for before, behind in PLACES:
        words = part_words(before, length, chance)
        for name in "packed", "made":
            part = read(name)[:length]
            write(f"{name}.part", part)
            write(f"{name}.file", noise(before, chance) + part + noise(behind, chance))
        for first, second in ("packed", "made"), ("made", "packed"):
            status, out, said = run("diff", *words, f"{first}.file", f"{second}.file")
            wanted = run("diff", f"{first}.part", f"{second}.part")
            verdict(f"diff {' '.join(words)}", (status, out, said.replace(".file", ".part")) == wanted)
        file, words = file_around(read("packed"), before, behind, chance)
        write("packed.whole", file)
        verdict(f"verify {' '.join(words)}", run("verify", *words, "--quiet", "packed.whole", "folder")[:2] == (0, ""))


def spared():
    """With `--oob` both count the bytes without the spare ones, in either order of the words."""
    chance = random.Random(96)
    for about, image, order, size in small_images():
        for page, spare in chance.choice(LAYOUTS[:4]), chance.choice(LAYOUTS[4:]):
            inner, words = file_around(image, *chance.choice(PLACES), chance)
            dump, words = dump_of(inner, page, spare, chance), [*words, layout_word(page, spare)]
            chance.shuffle(words)
            for command in ["check", "--scan"], ["ls", "--decompress"]:
                is_same(about, image, dump, [*command, *options_of(order, size), "image"], words)
            is_same(about, image, dump, ["info", "image"], words)
            is_same(about, image, dump, ["decompress", *options_of(order, size), "image", "made"], words, "made")


def parts():
    """A part of an image, and a part of one byte, are read as any file of these bytes."""
    chance = random.Random(97)
    for about, image, order, size in small_images():
        for _ in range(4):
            offset = chance.randrange(len(image))
            length = chance.choice((1, len(image) - offset, chance.randrange(len(image) - offset) + 1, None))
            part = image[offset:] if length is None else image[offset:offset + length]
            is_same(about, part, image, ["check", *options_of(order, size), "image"], part_words(offset, length, chance))
            is_same(about, part, image, ["info", "image"], part_words(offset, length, chance))
        is_same(about, image, image, ["check", *options_of(order, size), "image"], ["--offset=0"])
        for word in number_words(len(image)):
            is_same(about, image, image, ["info", "image"], ["--offset=0x0", f"--length={word}"])
    for command in ["check"], ["info"], ["ls"]:
        is_same("no byte", b"", b"", [*command, "image"], ["--offset=0"])


def unlike():
    """With another offset or length something else is seen of most files."""
    chance, others, count = random.Random(98), 0, 0
    for about, image, order, size in images.of_mkfs():
        write("image", image)
        plain = run("ls", "--decompress", *options_of(order, size), "image")
        write("image", chance.randbytes(4096) + image)
        for words in [], ["--offset=4095"], ["--offset=4K", f"--length={len(image) // 2}"]:
            count, others = count + 1, others + (run("ls", "--decompress", *words, *options_of(order, size), "image") != plain)
    verdict(f"{others} of {count} are seen otherwise", others > count * 2 // 3)


def lacked(count):
    """Parts that a file of so many bytes does not have."""
    yield from ((count, None), (count + 1, None), (count, 1), (0, count + 1), (1, count), (count - 1, 2), (count + 4096, 4), (0, 0xFFFFFFFF),
                (0xFFFFFFFF, None), (0xFFFFFFFF, 0xFFFFFFFF))


def is_refused(about, words, *made):
    """Whether the fault is that the file ends before, and nothing is printed or made."""
    done, files = seen(words, *made)
    status, out, said = done
    printed_none = out == "" or "--scan" in words
    verdict(f"{about}: {' '.join(words)}", status == UNREAD and printed_none and ENDS_EARLY in said and files == [None] * len(made))


def missing():
    """A part that the file does not have, by each command, with spare bytes too."""
    chance = random.Random(99)
    write_lines("more", ["mkdir 0755 /new"])
    for about, image, order, size in itertools.islice(small_images(), 6):
        write("image", image)
        dump = dump_of(image, 2048, 64, chance)
        write("dump", dump)
        write("good", image)
        for offset, length in lacked(len(image)):
            words = part_words(offset, length, chance)
            for command in KNOWN:
                is_refused(about, [*command, *words, "image"])
            is_refused(about, ["ls", "--oob=2048+64", *words, "dump"])
            is_refused(about, ["decompress", *words, *options_of(order, size), "image", "made"], "made")
            is_refused(about, ["append", "--blocks", "64", *words, *options_of(order, size), "image", "more", "made"], "made")
            is_refused(about, ["diff", *words, "image", "good"])
        words = part_words(len(image) + 1, 4, chance)
        # four bytes have no node
        verdict(f"{about}: the spare bytes count", run("info", *words, "dump")[0] == (3 if len(dump) >= len(image) + 5 else UNREAD))
    write("image", b"")
    for words in ["--offset=1"], ["--offset=0", "--length=1"]:
        for command in KNOWN:
            is_refused("no byte", [*command, *words, "image"])


def read_once():
    """Standard input may be such a file; and one that ends early."""
    image = next(image for _, image, order, size in images.of_mkfs() if order == "<" and size == 65536)
    write("image", image)
    plain, chance = run("ls", "--decompress", "image"), random.Random(100)
    for before, behind in PLACES:
        file, words = file_around(image, before, behind, chance)
        done = subprocess.run([PROGRAM, "ls", "--decompress", *words, "-"], input=file, capture_output=True, check=False)
        verdict(f"standard input {' '.join(words)}", (done.returncode, done.stdout.decode(), done.stderr.decode()) == plain)
    done = subprocess.run([PROGRAM, "ls", f"--offset={len(image)}", "-"], input=image, capture_output=True, check=False)
    verdict("standard input ends early", (done.returncode, done.stdout) == (UNREAD, b"") and ENDS_EARLY in done.stderr.decode())


def unread():
    """A file that is not there, and a folder: the same fault as without the words."""
    os.makedirs("folder", exist_ok=True)
    for name in "absent", "folder":
        for words in ["ls"], ["check", "--scan"], ["info"], ["diff", name]:
            verdict(f"{words} {name}", run(words[0], "--offset=4", "--length=8", *words[1:], name) == run(*words, name))


def kept():
    """A file that is read in part is not replaced, by whatever name it is given, and whatever is forced."""
    write_lines("more", ["mkdir 0755 /new"])
    chance = random.Random(101)
    for about, image, order, size in itertools.islice(small_images(), 3):
        file, words = file_around(image, 4096, 64, chance)
        write("dump", file)
        for name in "linked", "hard":
            if os.path.lexists(name):
                os.remove(name)
        os.symlink("dump", "linked")
        os.link("dump", "hard")
        folder = sorted(os.listdir("."))
        for part in words, ["--offset=0"], [f"--length={len(file)}"], ["--oob=2048+64"]:
            for command in ([["decompress"], ["decompress", "--force"], ["compress", "--force", "--atomic"], ["compact", "--force"]]):
                for name in "dump", "linked", "hard", "./dump":
                    done = run(*command, *part, *options_of(order, size), "dump", name)
                    verdict(f"{about}: {' '.join([*command, *part, name])}", done[0] == 1 and "I3 Part" in done[2] and "a part of it is read" in done[2])
            for command in ["append", "--blocks", "64"], ["append", "--blocks", "64", "--atomic"], ["update", "--blocks", "64", "--atomic"]:
                done = run(*command, *part, *options_of(order, size), "dump", "more", "linked")
                verdict(f"{about}: {' '.join([*command, *part])}", done[0] == 1 and "I3 Part" in done[2])
        verdict(f"{about}: nothing is made", read("dump") == file and sorted(os.listdir(".")) == folder)


def refused():
    """Wrong command lines."""
    write("image", bytes(64))
    numbers = "x", "-1", "+1", "1.5", "0x", "0xg", "K", "1k", "1G", "1KB", " 1", "1 ", "4294967296", "4G", "4096M", "18446744073709551617", ""
    for option, name, values in ("--offset", OFFSET, numbers), ("--length", LENGTH, (*numbers, "0", "0x0", "0K")):
        for value in values:
            words = [f"{option}={value}"] if option == "--offset" else ["--offset=0", f"{option}={value}"]
            status, out, said = run("ls", *words, "image")
            wanted = f"error: invalid value '{value}' for '{name}"
            verdict(f"{option}={value}", (status, out) == (2, "") and (said.startswith(wanted) or not value and option in said))
        words = ["--offset=0"] if option == "--length" else []
        status, out, said = run("ls", *words, f"{option}=1", f"{option}=1", "image")
        verdict(f"{option} twice", (status, out) == (2, "") and option in said)
    status, out, said = run("cuts", "--offset=4", "--blocks", "8", "listing")
    verdict("cuts without --on", (status, out) == (2, "") and "--on <IMAGE>" in said)
    for words in ["build", "--blocks", "8", "listing", "out"], ["pack", "folder", "out"], ["listing", "folder"]:
        for option in "--offset", "--length":
            status, out, said = run(words[0], f"{option}=4", *words[1:])
            verdict(f"{words[0]} {option}", (status, out) == (2, "") and said.startswith(f"error: unexpected argument '{option}' found"))


if __name__ == "__main__":
    sys.exit(run_all((printed, written, extended, compared, spared, parts, unlike, missing, read_once, unread, kept, refused)))
