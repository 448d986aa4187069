#!/usr/bin/env python3
"""Boots Linux, lets it write images in which two nodes of one version differ, and compares what
`decompress --clashes higher` leaves of them with what Linux shows, and `compact --clashes higher` with its model: see clashes.sh."""
import collections
import glob
import os
import random
import sys

import compact
import linux
import tree
from judging import ended, run, test

IMAGES, WANTED = 3, 3
WORDS = ["--block", "16384"]


def boot(place):
    """What Linux wrote, and what it shows of it."""
    given, got = os.path.join(place, "given"), os.path.join(place, "got")
    os.mkdir(given)
    tree.write(os.path.join(given, "random"), random.Random(7).randbytes(250000))
    tree.write(os.path.join(given, "clashes"), b"%d\n" % IMAGES)
    linux.boot(place, given, got)
    return got


def parted(what, image):
    """What is made of an image that is refused: `check` of it names no clash, and no node of it is
    left out again."""
    out = linux.parted(what, WORDS, image)
    if not out:
        return None
    linux.verdict(what, WORDS, out)
    status, told, errors = run("decompress", "--clashes", "higher", *WORDS, out, out + ".again")
    fine = status == 0 and not errors
    test(f"{what}: again", [] if fine else [f"status {status}: {told} {errors}"])
    return out


def judge(got):
    """Compares each image that is refused for a clash with the tree that Linux showed of it, and
    answers how many these are."""
    clashed, counts = 0, collections.Counter()
    for image in sorted(glob.glob(os.path.join(got, "clash*.img"))):
        what = os.path.basename(image)[:-4]
        if not linux.clashes(what, WORDS, image):
            linux.verdict(what, WORDS, image)
            continue
        out, small = parted(what, image), image + ".compacted"
        clashed += 1
        if compact.compacted(what, WORDS, image, small):
            compact.is_sound(what, WORDS, small)
        tar = image[:-4] + (".tar" if ".live" in what else ".again.tar")
        test(f"{what}: Linux shows it", [] if os.path.exists(tar) else ["Linux did not mount it"])
        if out and os.path.exists(tar):
            linux.said(what + ".live", tar[:-4] + ".log", counts)
            folder = linux.unpacked(tar)
            again, _ = linux.compare_tree(what, WORDS, out, folder)
            linux.extracted(what, WORDS, out, folder, again)
    linux.print_said(counts)
    return clashed


def main():
    clashed = judge(boot(sys.argv[3]))
    print(f"{clashed} images clash")
    test("images that clash", [] if clashed >= WANTED else [f"{clashed}, wanted {WANTED}"])
    return ended()


if __name__ == "__main__":
    sys.exit(main())
