#!/usr/bin/env python3
"""Runs each command that prints lines with `--json` and without, and compares the objects with the lines.

Usage: tests/json_lines.py [PROGRAM]. The images are those of mkfs.jffs2, soups of nodes of both orders, worked images of gaps and
damage, and trees of odd names: with spaces, quotation marks, backslashes and control bytes, and such as are no UTF-8. Each line of
the output with `--json` has to be one that Python's `json` reads, with no member twice, and to say what the line without it says: a converter of this
file makes that of the text, by its own patterns of jffs2_image.5. Status and notes have to be the same. Then what takes no `--json`.
The last line is 'N passed, M failed'.
"""
import json
import random
import re
import subprocess
import sys

import compressed_images as images
import diff
from groups import BLOCK, PROGRAM, Done, options_of, run_all, verdict, write, write_lines

# A group of a pattern is a member: its first letter says what it is, a number, a hexadecimal address, a text, or a name with escapes.
NUMBER = r"(?P<d_{}>0|[1-9][0-9]*)"
ADDRESS = r"(?P<x_{}>[0-9a-f]{{8}})"
TEXT = r"(?P<s_{}>[^ ]+)"
NAME = r"(?P<n_{}>[^ ]*)"
KINDS = {"d": NUMBER, "x": ADDRESS, "s": TEXT, "n": NAME}


def pattern(form):
    """A form has a member in angle brackets: its letter, a colon and its name."""
    parts = re.split(r"<(\w):(\w+)>", form)
    out = [re.escape(parts[0])]
    for letter, name, behind in zip(parts[1::3], parts[2::3], parts[3::3]):
        out += [KINDS[letter].format(name), re.escape(behind)]
    return re.compile("".join(out))


OBJECT = "<s:kind> <s:mode> <d:uid> <d:gid> <d:size>"
LOST = "<x:address> data-crc ino <d:ino> version <d:version> bytes <d:from> to <d:to>"
MAP = "<x:address> <d:live> <d:superseded> <d:obsolete> <d:damaged> <d:free>"
FORMS = {
    "ls": [("object", f"{OBJECT} <d:mtime> <d:ino> <n:path>")],
    "diff": [("bytes", "* <n:path> at <d:offset>"), ("object", f"<s:sign> {OBJECT} <n:path>"), ("object", f"<s:sign> {OBJECT} <d:mtime> <n:path>")],
    "check": [
        ("block", "block <d:number>"),
        *((kind, f"<x:address> {kind} <d:length>") for kind in ("marker", "padding", "obsolete", "attribute", "erased", "other-order", "dirt")),
        ("entry", "<x:address> entry <d:length> pino <d:pino> version <d:version> ino <d:ino> type <d:type> name <n:name>"),
        ("inode", "<x:address> inode <d:length> ino <d:ino> version <d:version> mode <s:mode> size <d:size> offset <d:offset> data <d:data> <s:fill>"),
        ("compressed", "<x:address> compressed <d:length> compr <d:compr>"),
        *((kind, f"<x:address> {kind} <d:length> type <s:type>") for kind in ("skipped", "read-only", "incompatible")),
        ("damaged", "<x:address> damaged <d:length> <s:which>"),
        ("total", "total blocks <d:blocks> entries <d:entries> inodes <d:inodes> findings <d:findings>"),
        ("mount", "mount <s:verdict>"),
        ("mount", "mount <s:verdict> <s:access>"),
        ("mount", "mount <s:verdict> <s:code> <s:error>"),
        ("mount", "mount <s:verdict> <s:code> <s:error> at <x:address>"),
        ("mount", "mount <s:verdict> <s:code> <s:error> at <x:address> type <s:type>"),
        ("mount", "mount <s:verdict> <s:code> <s:error> at <x:address> compr <d:compr>"),
        ("dangling", "dangling pino <d:pino> ino <d:ino> name <n:name>"),
        ("shape", "shape <s:verdict>"),
    ],
    "info": [
        ("bytes", "bytes <d:bytes>"),
        ("order", "order <s:order> nodes <d:nodes> other <d:other>"),
        ("order", "order <s:order>"),
        ("block", "block from <d:from> to <d:to> markers <d:markers>"),
        ("block", "block <s:block>"),
        ("nodes", "nodes entries <d:entries> inodes <d:inodes> obsolete <d:obsolete> damaged <d:damaged> other <d:other>"),
        ("data", "data none <d:none> zero <d:zero> rtime <d:rtime> zlib <d:zlib> lzo <d:lzo> lzma <d:lzma> other <d:other>"),
        ("highest", "highest inode <d:inode> version <d:version>"),
        ("spare", "spare <d:spare> after each <d:page>"),
    ],
    "damage": [
        ("data-crc", f"{LOST} hides <n:path>"),
        ("data-crc", f"{LOST} and <d:more> more paths"),
        ("data-crc", f"{LOST} has <s:paths> path"),
        ("name-crc", "<x:address> name-crc pino <d:pino> version <d:version> ino <d:ino> lost"),
        ("name-crc", "<x:address> name-crc pino <d:pino> version <d:version> ino <d:ino> lost in <n:path>"),
        ("unknown", "<x:address> <s:which> unknown"),
        ("gap", "gap ino <d:ino> bytes <d:from> to <d:to> in <n:path>"),
        ("gap", "gap ino <d:ino> bytes <d:from> to <d:to> and <d:more> more paths"),
        ("missing", "missing <n:path> ino <d:ino>"),
        ("missing", "missing pino <d:pino> name <n:name> ino <d:ino>"),
        ("total", "total damaged <d:damaged> paths <d:paths> missing <d:missing> gaps <d:gaps>"),
    ],
    "history": [
        ("entry", "<x:address> <s:word> entry pino <d:pino> version <d:version> ino <d:ino> mctime <d:mctime> type <d:type> name <n:name>"),
        ("inode", "<x:address> <s:word> inode ino <d:ino> version <d:version> mode <s:mode> uid <d:uid> gid <d:gid> isize <d:isize> "
         "atime <d:atime> mtime <d:mtime> ctime <d:ctime> offset <d:offset> dsize <d:dsize> compr <d:compr>"),
        ("obsolete", "<x:address> <s:word> length <d:length>"),
        ("total", "total live <d:live> superseded <d:superseded> deleted <d:deleted> deletion <d:deletion> unreached <d:unreached> obsolete <d:obsolete>"),
        ("was", "was ino <d:ino>"),
        ("was", "was ino <d:ino> versions <d:lowest> to <d:highest>"),
        ("was", "was ino <d:ino> versions <d:lowest> to <d:highest> size <d:size> sha256 <s:sha256>"),
    ],
    "map": [("block", f"<d:number> {MAP} <s:bar>"), ("total", "total " + MAP.split(" ", 1)[1])],
    "cuts": [
        ("step", "<x:address> <d:length> line <d:listing_line> step <d:step> of <d:of> stands from <x:from>"),
        ("weak", "weak <x:address> at <d:at>"),
        ("total", "total operations <d:operations> steps <d:steps> from <x:from> to <x:to> weak <d:weak>"),
    ],
}
PATTERNS = {command: [(kind, pattern(form)) for kind, form in forms] for command, forms in FORMS.items()}


# ---- the object of a line, by the text


def meant(word):
    """The bytes that a word with escapes stands for."""
    plain = re.sub(rb"\\x([0-9a-f]{2})", lambda m: bytes((int(m[1], 16),)), word.encode())
    if re.sub(r"\\x[0-9a-f]{2}", "", word).count("\\"):
        raise AssertionError(word)
    return plain


def member(letter, name, word):
    """The member of a word."""
    if letter == "d":
        return name, int(word)
    if letter == "x":
        return name, int(word, 16)
    if letter == "s":
        return name, word
    try:
        return name, meant(word).decode()
    except UnicodeDecodeError:
        return f"{name}_bytes", meant(word).hex()


def tail_of(command, line):
    """A line of a tree without what may be after its path, and the members of that."""
    if command not in ("ls", "diff") or line.startswith("* "):
        return line, {}
    front, arrow, target = line.partition(" -> ")
    if arrow:
        size = re.search(r"[0-9]{4} [0-9]+ [0-9]+ ([0-9]+) ", front)
        is_long = target == "(long)" and int(size[1]) > 4095
        return front, {"long": True} if is_long else dict([member("n", "target", target)])
    if line.endswith(" (again)"):
        return line[: -len(" (again)")], {"again": True}
    return line, {}


def object_of(command, line):
    """The object of a line, or None of one of the headings of `map`."""
    if command == "map":
        if line.startswith("# ") or line.startswith("block "):
            return None
        line = " ".join(line.split())
    front, tail = tail_of(command, line)
    if command == "damage" and front.endswith(" hides nothing"):
        front = front[: -len("nothing")] + "/"
        found = [("data-crc", PATTERNS["damage"][0][1].fullmatch(front))]
        tail = {"hides": "nothing"}
    else:
        found = [(kind, form.fullmatch(front)) for kind, form in PATTERNS[command]]
        found = [(kind, match) for kind, match in found if match and is_path_right(match)]
    if len(found) != 1:
        raise AssertionError((line, [kind for kind, _ in found]))
    kind, match = found[0]
    members = dict(member(name[0], name[2:], word) for name, word in match.groupdict().items())
    if "hides" in tail:
        del members["path"]
    return {"line": kind, **members, **tail}


def is_path_right(match):
    return match.groupdict().get("n_path", "/").startswith("/")


def once(pairs):
    """The object of these members; no two have one name."""
    if len(dict(pairs)) != len(pairs):
        raise ValueError(pairs)
    return dict(pairs)


def objects_in(out):
    """The objects of an output: one a line, and each line ends with a line feed."""
    if out and not out.endswith(b"\n"):
        raise ValueError(out[-80:])
    return [json.loads(line, object_pairs_hook=once) for line in out.decode().split("\n")[:-1]]


# ---- runs


def ran(*words):
    done = subprocess.run([PROGRAM, *words], stdin=subprocess.DEVNULL, capture_output=True, check=False)
    return Done(done.returncode, done.stdout, done.stderr)


def lines_of(out):
    """The lines of a text. Of its bytes all are ASCII."""
    return out.decode("ascii").split("\n")[:-1]


def same(about, *words):
    """Runs a command with `--json` and without."""
    plain, done = ran(*words), ran(words[0], "--json", *words[1:])
    try:
        wanted = [found for found in (object_of(words[0], line) for line in lines_of(plain.out)) if found is not None]
        right = objects_in(done.out) == wanted
    except (ValueError, AssertionError) as error:
        verdict(f"{about}: {' '.join(words)}: {error!r}", False, done)
        return
    verdict(f"{about}: {' '.join(words)}", right and (done.status, done.err) == (plain.status, plain.err), done)


READING = (["ls"], ["ls", "--decompress"], ["check"], ["check", "--scan"], ["check", "--shape", "--decompress"], ["damage"],
           ["damage", "--decompress"], ["history"], ["map"])


def try_image(about, image, order, size):
    """Each command that reads an image."""
    write("image", image)
    for words in READING:
        same(about, *words, *options_of(order, size), "image")
    same(about, "ls", "--auto", "image")
    same(about, "info", "image")


def small_images():
    """Images of mkfs.jffs2 and soups."""
    for about, image, order, size in images.of_mkfs():
        try_image(about, image, order, size)
    for about, image, order in images.soups_of_both(40, 14):
        try_image(about, image, order, BLOCK)


ODD = (b"a b", b"\"q\"", b"back\\slash", b"\x01\x1f\x7f", b"\xff\xfe", b"\xc3\xa4", b"\xe2\x82", b"(again)", b"(long)", b"->", b"n" * 254, b"\\x20", b"#", b"\n\t")


def odd_trees():
    """Names and targets of odd bytes, in both orders; directories of two names; names without an object; names in no directory."""
    for order in "<>":
        make = images.Maker(order)
        nodes = [make.entry(1, 1, 2, b"d", 4), make.entry(1, 2, 2, b"e", 4), make.inode(2, 1, b"", 0, mode=images.DIRECTORY)]
        for k, name in enumerate(ODD):
            nodes += [make.entry(2, 2 * k + 3, 10 + k, name, 8), make.inode(10 + k, 1, name, len(name))]
            nodes += [make.entry(1, 2 * k + 4, 40 + k, b"l%d" % k, 10), make.inode(40 + k, 1, name, len(name), mode=images.SYMLINK)]
        nodes += [make.entry(1, 99, 98, b"\xffgone"), make.entry(97, 100, 96, b"\xffastray")]
        nodes += [make.entry(1, 101, 95, b"empty", 10), make.inode(95, 1, b"", 0, mode=images.SYMLINK)]
        nodes += [make.entry(1, 102, 94, b"long", 10), *long_target(make)]
        for damaged in ([], [0], [4], [5, 8], [7, 11, 12]):
            found = [one_damaged(node) if k in damaged else node for k, node in enumerate(nodes)]
            try_image(f"odd tree, {order}, damaged {damaged}", make.laid(found, 65536), order, 65536)
            write("odd", make.laid(found, 65536))
            for other in ("image", "odd"):
                for times in ([], ["--times"]):
                    same(f"odd tree, {order}", "diff", *times, *options_of(order, 65536), "odd", other)


def long_target(make):
    """A symlink of 5000 bytes in two nodes."""
    return [make.inode(94, 1, b"t" * 4096, 4096, mode=images.SYMLINK), make.inode(94, 2, b"t" * 904, 5000, mode=images.SYMLINK, offset=4096)]


def data_damaged(node):
    """The inode node, of damaged data."""
    return node[:68] + bytes((node[68] ^ 1,)) + node[69:]


def name_damaged(node):
    """The entry node, of a damaged name."""
    return node[:-1] + bytes((node[-1] ^ 1,))


def one_damaged(node):
    """A node of one of both kinds, of damaged data or of a damaged name."""
    return data_damaged(node) if b"\x02\xe0" in node[:4] or b"\xe0\x02" in node[:4] else name_damaged(node)


def damaged_images():
    """Files of several names and of none, with nodes of damaged data and gaps, in both orders."""
    chance = random.Random(81)
    for order in "<>":
        make = images.Maker(order)
        for number in range(20):
            nodes = [make.entry(1, 1, 2, b"a"), make.entry(1, 2, 2, b"b\xff"), make.entry(1, 3, 3, b"c"), make.entry(9, 4, 4, b"d")]
            nodes += [make.entry(1, 10 + k, 5, b"n%02d" % k) for k in range(chance.choice((0, 15, 16, 17)))]
            for k in range(12):
                node = make.inode(chance.choice((2, 3, 4, 5)), 1 + k, bytes(chance.randrange(1, 9)), 40, offset=chance.randrange(30))
                nodes.append(data_damaged(node) if chance.randrange(2) else node)
            try_image(f"damaged image {number}, {order}", make.laid(nodes, 8192), order, 8192)


def differences():
    """Pairs of images of the random listings of tests/diff.py."""
    for seed in range(20):
        options = ["--block", "8192", "--endian", ("little", "big")[seed % 2]]
        for name, listing in zip(("one", "two"), diff.listings(seed)):
            write_lines(f"{name}.txt", listing)
            ran("build", "--blocks", "64", *options, f"{name}.txt", f"{name}.img")
        for times in ([], ["--times"]):
            same(f"random listings {seed}", "diff", *times, *options, "one.img", "two.img")
            same(f"random listings {seed}", "diff", *times, *options, "two.img", "one.img")


LISTING = ["mkdir 0755 /etc", "create 0644 /etc/\\xff", "write /etc/\\xff 0 626f780a", "symlink /name etc/hostname", "create 0644 /a", "write /a 0 bef98e24fe"]


def cuts():
    """Each form of `cuts`, with a weak node among the lines."""
    for order in "<>":
        options = options_of(order, 8192)
        write_lines("base", LISTING)
        ran("build", "--blocks", "9", *options, "base", "image")
        write_lines("listing", ["create 0644 /b", "write /b 0 bef98e24fe00112233", "remove-if /none", "mkdir 0700 /c"])
        write_lines("refused", ["create 0644 /b", "mkdir 0755 /x/y"])
        for words in (["--blocks", "9", "base"], ["--blocks", "9", "--compress", "base"], ["--blocks", "9", "--on", "image", "listing"],
                      ["--blocks", "9", "--decompress", "--on", "image", "listing"], ["--update", "--on", "image", "listing"],
                      ["--update", "--plain", "--on", "image", "listing"], ["--update", "--tail", "--on", "image", "listing"],
                      ["--blocks", "9", "refused"], ["--blocks", "1", "base"]):
            same("cuts", "cuts", *options, *words)


def refused():
    """What takes no `--json`: other commands, and a map that is a picture."""
    write_lines("base", LISTING)
    ran("build", "--blocks", "9", "base", "image")
    for words in (["cat", "image", "/a"], ["map", "--svg", "image"], ["build", "--blocks", "9", "base", "out"], ["listing", "."]):
        done = ran(words[0], "--json", *words[1:])
        verdict(f"refused: {' '.join(words)}", done.status == 2 and done.out == b"", done)


GROUPS = small_images, odd_trees, damaged_images, differences, cuts, refused

if __name__ == "__main__":
    sys.exit(run_all(GROUPS))
