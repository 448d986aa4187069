#!/usr/bin/env python3
"""Boots Linux, lets it write images until blocks were collected, and boots it again to mount what `compact` makes of them: see
compact.sh."""
import glob
import os
import random
import re
import sys

import linux
import tars
import tree
from judging import ended, run, test

sys.path.append(os.path.dirname(os.path.dirname(os.path.abspath(__file__))))
import compact_model as model  # noqa: E402

BLOCKS = {"used64": 65536, "used16": 16384, "usednand": 8192, "usedholes": 16384}
HIGHER = ("--clashes", "higher")
LINE = re.compile(rb"compacted (\d+) of (\d+) nodes bytes (\d+)\n")


def words_of(name):
    """The options for an image by its name."""
    return ["--block", str(BLOCKS[re.search("used[a-z0-9]*", name)[0]])]


def inputs(given, flag):
    """What is given to Linux: what files are cut from, and what it is to do."""
    os.makedirs(given)
    tree.write(os.path.join(given, "random"), random.Random(8).randbytes(250000))
    tree.write(os.path.join(given, "text"), linux.text(250000))
    if flag:
        tree.write(os.path.join(given, flag), b"")


def read(name):
    with open(name, "rb") as file:
        return file.read()


def tar_of(image):
    """The tree that Linux showed of an image after it was mounted anew."""
    return image[:-4] + (".tar" if ".live" in image else ".again.tar")


def compacted(what, words, image, out):
    """Runs `compact`, with --clashes higher where nodes clash; whether it made OUT, and that it leaves out nodes where it should."""
    status, told, errors = run("compact", *words, image, out)
    apart = status == 1 and "M5 Clash" in errors
    if apart:
        print(f"{what}: {errors.splitlines()[0]}")
        as_model(f"{what}: refused as the model", words, image, out, (status, told, errors), False)
        status, told, errors = run("compact", *HIGHER, *words, image, out)
    line = LINE.fullmatch(told)
    print(f"{what}: {told.decode().strip()}, of {os.path.getsize(image)}; {errors}")
    faults = [] if status in (0, 3) and line else [f"status {status}: {told} {errors}"]
    if not faults:
        kept, nodes, size = map(int, line.groups())
        faults = [] if kept < nodes and size == os.path.getsize(out) < os.path.getsize(image) else [f"{told}"]
    test(f"{what}: compact", faults)
    as_model(f"{what}: compact as the model", words, image, out, (status, told, errors), apart)
    if not apart:
        again = run("compact", *HIGHER, *words, image, out + ".higher")
        as_model(f"{what}: compact --clashes higher as the model", words, image, out + ".higher", again, True)
    return out if line else None


def as_model(what, words, image, out, ran, apart):
    """The status, both outputs and each byte of OUT are those of compact_model.py, or there is no OUT where the model refuses."""
    made, fault = model.compact(read(image), int(words[1]), apart=apart)
    if made:
        notes = "\n".join(model.notes_of(made))
        wanted = (3 if notes else 0, f"{model.line_of(made)}\n".encode(), notes)
    else:
        ran, wanted = (*ran[:2], ran[2].splitlines()[0]), (1, b"", f"jffs2_image: {fault}")
    written = read(out) if os.path.exists(out) else None
    faults = [] if ran == wanted else [f"{ran}, wanted {wanted}"]
    test(what, faults + ([] if written == (made.image if made else None) else ["other bytes than those of the model"]))


def is_sound(what, words, out):
    """OUT has no finding and no dangling name, and is compact."""
    status, told, errors = run("check", "--decompress", *words, out)
    lines = told.decode().splitlines()
    fine = status == 0 and lines[-1:] == ["mount ok"] and not errors
    test(f"{what}: check", [] if fine else [f"status {status}: {lines[-2:]} {errors}"])
    status, told, errors = run("compact", *words, out, out + ".again")
    line, fine = LINE.fullmatch(told), False
    if status == 0 and line:
        fine = line[1] == line[2] and read(out) == read(out + ".again")
        os.remove(out + ".again")
    test(f"{what}: compact again", [] if fine else [f"status {status}: {told} {errors}"])


def made(got, given):
    """What `compact` makes of each image that Linux wrote, for the second boot."""
    names = []
    for image in sorted(glob.glob(os.path.join(got, "used*.img"))):
        what, words = os.path.basename(image)[:-4], words_of(os.path.basename(image))
        test(f"{what}: Linux shows it", [] if os.path.exists(tar_of(image)) else ["Linux did not mount it"])
        out = os.path.join(given, f"compacted-{what}.img")
        if compacted(what, words, image, out):
            is_sound(what, words, out)
            names.append(what)
    return names


def shown_by_program(what, words, image, tar):
    """`ls` and `extract` through the compression agree with what Linux shows of the same image."""
    folder = linux.unpacked(tar)
    again, _ = linux.compare_tree(what, [*words, "--decompress"], image, folder)
    linux.extracted(what, [*words, "--decompress"], image, folder, again)


def judge_one(name, got, given, got_again):
    """The tree of what `compact` made is that of the image, mounted to read and to write; what Linux writes then is there."""
    what, words = f"compacted-{name}", words_of(name)
    wanted = tars.shown(tar_of(os.path.join(got, name + ".img")))
    for end in ("", ".rw"):
        tar = os.path.join(got_again, what + end + ".tar")
        if not os.path.exists(tar):
            test(f"{what}{end}", ["Linux did not mount it"])
            return
        test(f"{what}{end}: the same {len(wanted)} paths", tars.differences(tars.shown(tar), wanted))
    shown_by_program(what, words, os.path.join(given, what + ".img"), os.path.join(got_again, what + ".tar"))
    if ".live" not in name:
        went_on(what, words, wanted, got_again)


def went_on(what, words, wanted, got_again):
    """What Linux wrote then is there after a new mount, and all that was there before."""
    new = f"/new.{what}"
    then, after = (tars.shown(os.path.join(got_again, f"{what}.more{end}.tar")) for end in ("", ".again"))
    test(f"{what}: what was written then is there", tars.differences(after, then))
    old = {path: fact for path, fact in after.items() if path != new and not path.startswith(new + "/")}
    test(f"{what}: what was there stays", tars.differences(old, wanted))
    written = len(after) - len(old)
    test(f"{what}: Linux wrote {written} paths", [] if written > 20 else ["it wrote less"])
    more = os.path.join(got_again, f"{what}.more.img")
    if not linux.clashes(f"{what}.more", [*words, "--decompress"], more):
        shown_by_program(f"{what}.more", words, more, more[:-4] + ".again.tar")


def main():
    (given, got), (given_again, got_again) = [[os.path.join(sys.argv[3], name, part) for part in ("given", "got")] for name in ("1", "2")]
    inputs(given, "used")
    linux.boot(os.path.dirname(given), given, got)
    inputs(given_again, None)
    names = made(got, given_again)
    print(f"{len(names)} images are compacted")
    linux.boot(os.path.dirname(given_again), given_again, got_again)
    for name in names:
        judge_one(name, got, given_again, got_again)
    linux.all_said(got_again, "compacted-*.log", lambda name: name.replace(".live", "_live"))
    return ended()


if __name__ == "__main__":
    sys.exit(main())
