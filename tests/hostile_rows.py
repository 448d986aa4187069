"""Small images in both orders, with what each command says of them by the rules of docs/FORMAT.md. It shares no code with the program."""
import itertools
import struct

import hostile_model as model
from compressed_images import FILE, SYMLINK
from hostile_images import DIRECTORY, crc

ROOT = "d 0755 0 0 0 0 1 /\n"
FINDINGS = "total blocks {} entries {} inodes {} findings {}\n"


def node(make, ino, mode, data=b"", version=1, size=None, offset=0, zeros=0, owner=(0, 0), mtime=0):
    """An inode node; with `zeros` one of so many of them."""
    size, dsize = len(data) if size is None else size, zeros or len(data)
    front = make.header(0xE002, 68 + len(data)) + struct.pack(
        make.order + "3I2H7I2BH", ino, version, mode, *owner, size, 0, mtime, 0, offset, len(data), dsize, int(zeros > 0), 0, 0
    )
    return front + make.number(crc(data)) + make.number(crc(front)) + data


def entry(make, pino, ino, name, version=1):
    return make.entry(pino, version, ino, name, time=0)


def joined(nodes):
    """The nodes one behind the other, each filled up to whole words."""
    return b"".join(node + b"\xff" * (-len(node) % 4) for node in nodes)


# ---- Circles

CIRCLE_LINES = ROOT + "d 0755 0 0 0 0 2 /d\nd 0755 0 0 0 0 1 /d/x (again)\nd 0755 0 0 0 0 2 /d/y (again)\n"
CIRCLE_DIRECTORIES = ("/d", "/d/y", "/d/x", "/d/y/y/x/d", "/d/x" * 6)
CIRCLE_REFUSALS = (
    ("rename /d /d/y/z", "O8 IntoItself"),
    ("rename /d /d/z", "O8 IntoItself"),
    ("rename /d/y /d/x/d/z", "O8 IntoItself"),
    ("rename /d/x /z", "O8 IntoItself"),
    ("remove /d/x", "O7 NotEmpty"),
    ("remove /d/y", "O7 NotEmpty"),
    ("remove /d", "O7 NotEmpty"),
    ("rename /d/none /z", "O3 NotFound"),
)


def circle(make):
    """Directory 2 in the root, with the root and itself in it."""
    names = ((1, 2, b"d"), (2, 1, b"x"), (2, 2, b"y"))
    return joined([node(make, 2, DIRECTORY), *(entry(make, *name) for name in names)])


# ---- Headers of any length

BLOCK = 4096
WRAPPING = (4097, 4194305, 0x7FFFFFFF, 0x80000000, 0xFFFF0000, 0xFFFFF00C, 0xFFFFFFFC)


def lengths():
    """Places of a block with lengths of a node there: each place with those about the least and the greatest, four with such
    whose end a sum of 32 bits does not hold."""
    for place in range(0, BLOCK - 8, 4):
        left = BLOCK - place
        yield from ((place, length) for length in (0, 11, 12, left - 1, left, left + 1))
    yield from itertools.product((0, 4, 2048, 4084), WRAPPING)


def lone_header(make, place, length):
    """Erased flash up to the header of a padding node."""
    return b"\xff" * place + make.header(0x2004, length)


def lone_lines(number, place, length):
    """What is reported of the block of this number that has such a header and is erased else, and whether a node is there."""
    is_node = 12 <= length <= BLOCK - place
    # The last 8 bytes of a block are one tile: with a part of the header in it, it is dirt as a whole.
    size = (length + 3) // 4 * 4 if is_node else 16 if place == BLOCK - 16 else 12
    rows = ((0, "erased", place), (place, "padding" if is_node else "dirt", size), (place + size, "erased", BLOCK - place - size))
    tiles = "".join(f"{number * BLOCK + at:08x} {what} {count}\n" for at, what, count in rows if count)
    return f"block {number}\n{tiles}", is_node


def lone_report(rows):
    """The same of blocks one after the other, and the status of `check`."""
    blocks = [lone_lines(number, *row) for number, row in enumerate(rows)]
    count = sum(not is_node for _, is_node in blocks)
    lines = "".join(lines for lines, _ in blocks) + FINDINGS.format(len(blocks), 0, 0, count)
    return lines + "mount ok\n", 3 if count else 0


# ---- A changed byte

# A marker, the node of an empty file, its name, and its bytes: where each ends, and the padding behind the last two.
PARTS = ((12, "marker"), (80, "file"), (122, "name"), (124, "padding"), (195, "bytes"), (196, "padding"))
CHANGED_BLOCK = 8192


def changed(make, at):
    """A block for each other value of the byte at this place, with a file of its own in each; and what is found in all of them."""
    blocks = []
    for change in range(1, 256):
        nodes = [node(make, change + 1, FILE), entry(make, 1, change + 1, b"%02x" % change, change), node(make, change + 1, FILE, b"abc", 2)]
        copy = bytearray(joined([make.header(0x2003, 12), *nodes]))
        copy[at] ^= change
        blocks.append(bytes(copy))
    # Erased flash behind the nodes is no finding, however long.
    small, size = b"".join(block + b"\xff" * 12 for block in blocks), len(blocks[0]) + 12
    image = b"".join(block.ljust(CHANGED_BLOCK, b"\xff") for block in blocks)
    return image, model.report(small, size, make.order)


def changed_lines(at):
    """What `ls` prints of that image, and the bytes of each file; None where its name is gone."""
    part = next(part for end, part in PARTS if at < end)
    size = 0 if part == "bytes" else 3
    lines = [f"- 0644 0 0 {size} 0 {change + 1} /{change:02x}\n" for change in range(1, 256)]
    return ROOT + ("" if part == "name" else "".join(lines)), None if part == "name" else b"abc"[:size]


# ---- Nodes in every order


def orders(make):
    """For each order of six nodes a file whose nodes lie in it: made, written, cut, and written past its end."""
    for number, order in enumerate(itertools.permutations(range(6))):
        ino = number + 2
        nodes = (
            node(make, ino, FILE),
            entry(make, 1, ino, b"%03d" % number, number + 1),
            node(make, ino, FILE, bytes(range(1, 11)), 2),
            node(make, ino, FILE, b"", 3, 4),
            node(make, ino, FILE, b"", 4, 8, 4, 4),
            node(make, ino, FILE, b"\xff", 5, 9, 8),
        )
        yield from (nodes[place] for place in order)


ORDERS_LEFT = bytes((1, 2, 3, 4, 0, 0, 0, 0, 0xFF))
ORDERS_LINES = ROOT + "".join(f"- 0644 0 0 9 0 {number + 2} /{number:03}\n" for number in range(720))


# ---- Worked reports


def obsolete(make, node):
    """The same node with the bit of its type cleared by which it lives."""
    kind = struct.unpack_from(make.order + "H", node, 2)[0] & ~0x2000
    return node[:2] + struct.pack(make.order + "H", kind) + node[4:]


def reports(make, other):
    """Images in blocks of 4,096 bytes with what `check --scan` prints; `other` makes nodes of the other order."""
    header = make.header
    marker, name, file = header(0x2003, 12), entry(make, 1, 2, b"a"), node(make, 2, FILE)
    named = "entry 44 pino 1 version 1 ino 2 type 8 name a\n"
    front = f"block 0\n00000000 marker 12\n0000000c {named}00000038 erased 4040\n"
    two = front + f"block 1\n00001000 {named}0000102c erased 4052\n" + FINDINGS.format(2, 2, 0, 0)
    last = "block 0\n00000000 erased 4084\n00000ff4 {} 12\n"
    of_types = [header(kind, 12) for kind in (0x2003, 0xE008, 0xE0F7, 0xA0F7, 0x2006)] + [obsolete(make, header(0xE0F7, 12))]
    yield marker + name, front + FINDINGS.format(1, 1, 0, 0)
    inode = "0000000c inode 68 ino 2 version 1 mode 100644 size 0 offset 0 data 0 none\n"
    yield marker + file, f"block 0\n00000000 marker 12\n{inode}00000050 erased 4016\n" + FINDINGS.format(1, 0, 1, 0)
    yield b"\xff" * BLOCK, "block 0\n00000000 erased 4096\n" + FINDINGS.format(1, 0, 0, 0)
    yield b"", FINDINGS.format(0, 0, 0, 0)
    yield header(0x2003, 0), "block 0\n00000000 dirt 12\n0000000c erased 4084\n" + FINDINGS.format(1, 0, 0, 1)
    yield b"\xff" * 4084 + header(0x2003, 13), last.format("dirt") + FINDINGS.format(1, 0, 0, 1)
    yield b"\xff" * 4084 + marker, last.format("marker") + FINDINGS.format(1, 0, 0, 0)
    yield obsolete(make, name), "block 0\n00000000 obsolete 44\n0000002c erased 4052\n" + FINDINGS.format(1, 0, 0, 0)
    types = ("marker 12", "attribute 12", "incompatible 12 type e0f7", "read-only 12 type a0f7", "skipped 12 type 2006", "obsolete 12")
    tiles = "".join(f"{12 * at:08x} {tile}\n" for at, tile in enumerate(types))
    yield b"".join(of_types), f"block 0\n{tiles}00000048 erased 4024\n" + FINDINGS.format(1, 0, 0, 3)
    foreign = "block 0\n00000000 other-order 4\n00000004 dirt 40\n0000002c erased 4052\n"
    yield entry(other, 1, 2, b"a"), foreign + FINDINGS.format(1, 0, 0, 2)
    for end in (b"", b"\xff" * 3):
        yield (marker + name).ljust(BLOCK, b"\xff") + name + end, two
    torn = "block 0\n00000000 erased 4056\n00000fd8 dirt 40\nblock 1\n00001000 dirt 4\n00001004 erased 4092\n"
    yield b"\xff" * 4056 + name, torn + FINDINGS.format(2, 0, 0, 2)


# ---- Worked trees


def trees(make):
    """Images with what `ls` prints of them."""
    own = lambda ino, mode, data=b"", **others: node(make, ino, mode, data, **others)
    name = lambda pino, ino, text, version=1: entry(make, pino, ino, text, version)
    yield [], ROOT
    lines = "d 0700 0 0 0 5 1 /\nl 0777 0 0 3 0 2 /s -> a\\x2fb\n"
    yield [own(1, 0o040700, mtime=5), own(2, SYMLINK, b"a/b"), name(1, 2, b"s")], lines
    names = ((1, 2, b"a"), (2, 3, b"b"), (3, 4, b"c"), (4, 5, b"f"), (2, 5, b"z"), (1, 5, b"ab"), (1, 5, b"a-b"), (1, 4, b"b"))
    lines = (
        "d 0755 0 0 0 0 2 /a\nd 0755 0 0 0 0 3 /a/b\nd 0755 0 0 0 0 4 /a/b/c\n- 0644 0 0 0 0 5 /a/b/c/f\n- 0644 0 0 0 0 5 /a/z\n"
        "- 0644 0 0 0 0 5 /a-b\n- 0644 0 0 0 0 5 /ab\nd 0755 0 0 0 0 4 /b (again)\n"
    )
    yield [*(own(ino, DIRECTORY) for ino in (2, 3, 4)), own(5, FILE), *(name(*row) for row in names)], ROOT + lines
    names = ((1, 9, b"a"), (1, 2, b"b"), (2, 3, b"below_a_file"), (4, 3, b"below_an_orphan"), (1, 10, b"z"))
    objects = [own(2, FILE), own(3, FILE), own(4, DIRECTORY)]
    yield [*objects, *(name(*row) for row in names)], ROOT + "- 0644 0 0 0 0 2 /b\n"
    modes = {2: 0o010600, 3: 0o020600, 4: 0o041777, 5: 0o060000, 7: SYMLINK, 8: 0o140755, 9: 0o150007}
    objects = [*(own(ino, mode) for ino, mode in modes.items()), own(6, 0o106755, b"hi", owner=(1000, 65535), mtime=4294967295)]
    lines = (
        "p 0600 0 0 0 0 2 /a\nc 0600 0 0 0 0 3 /b\nd 1777 0 0 0 0 4 /c\nb 0000 0 0 0 0 5 /d\n- 6755 1000 65535 2 4294967295 6 /e\n"
        "l 0777 0 0 0 0 7 /f -> \ns 0755 0 0 0 0 8 /g\n? 0007 0 0 0 0 9 /h\n"
    )
    yield [*objects, *(name(1, ino, b"_abcdefgh"[ino - 1 : ino]) for ino in range(2, 10))], ROOT + lines
    lines = "d 0755 0 0 0 0 2 /a\\x20b\\x5c\n- 0644 0 0 0 0 3 /a\\x20b\\x5c/\\xff\\x2f\\x0a~\n"
    yield [own(2, DIRECTORY), own(3, FILE), name(1, 2, b"a b\\"), name(2, 3, b"\xff/\n~")], ROOT + lines
    for length, shown in ((4095, "x" * 4095), (4096, "(long)")):
        yield [own(2, SYMLINK, b"x" * length), name(1, 2, b"s")], ROOT + f"l 0777 0 0 {length} 0 2 /s -> {shown}\n"
    for ending in (b"", b" " * 254):
        yield [own(2, FILE), name(1, 2, b"n" + ending[1:])], ROOT + "- 0644 0 0 0 0 2 /n" + "\\x20" * len(ending[1:]) + "\n"


def unmounted(make):
    """Images that do not mount, and why."""
    yield joined([node(make, 2, FILE), node(make, 2, 0o100600)]), "M5 Clash at 00000044 with 00000000"
    yield joined([node(make, 1, FILE)]), "M6 RootKind"


def with_findings(make, other):
    """Beginnings of blocks that a file `/a` stands behind, and how many of their findings `ls` and `cat` tell of."""
    header, file = make.header, node(make, 2, FILE)
    damaged = file[:-4] + bytes((file[-4] ^ 1,)) + file[-3:]
    none, foreign = header(0x2003, 0), other.header(0x2003, 12)[:4]
    yield header(0x2003, 12) + header(0xE008, 12) + header(0xA0F7, 12), 0
    yield header(0x2003, 12) + none, 1
    yield foreign, 1
    yield damaged, 1
    yield damaged + header(0xE008, 12) + foreign + header(0x2003, 12) + none, 3
