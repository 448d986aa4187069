"""Images that are made to do harm, little order: nodes with sound checksums that say what no producer writes."""
import os
import random
import struct
import sys

sys.path.insert(0, os.path.join(os.path.dirname(os.path.abspath(__file__)), "..", "bench"))
from images import BLOCK, crc, entry, header, inode  # noqa: E402

DIRECTORY = 0o040755
LONGEST = 0xFFFFFFFF


def laid(nodes):
    """The nodes one behind the other, each filled up to whole words, in the next block where it would pass a block's end."""
    image = bytearray()
    for node in nodes:
        node += b"\xff" * (-len(node) % 4)
        if BLOCK - len(image) % BLOCK < len(node):
            image += b"\xff" * (-len(image) % BLOCK)
        image += node
    return bytes(image)


def sample():
    """A file `/a` of three bytes: marker, inode node, entry, data."""
    return laid([header(0x2003, 12), inode(2, 1, 0, 0, b""), entry(1, 1, 2, b"a"), inode(2, 2, 0, 3, b"abc")])


def circle():
    """Directory 2 in the root, with the root and itself in it."""
    return laid([inode(2, 1, 0, 0, b"", DIRECTORY), entry(1, 1, 2, b"d"), entry(2, 1, 1, b"x"), entry(2, 2, 2, b"y")])


def longest():
    """A file of 4,294,967,295 bytes, of which the image has the first one."""
    return laid([inode(2, 1, 0, LONGEST, b"x"), entry(1, 1, 2, b"a")])


def zeros(ino, version, offset, size, length):
    """An inode node of a range of zeros."""
    front = header(0xE002, 68) + struct.pack(
        "<IIIHHIIIIIIIBBH", ino, version, 0o100644, 0, 0, size, 0, 0, 0, offset, 0, length, 1, 0, 0
    )
    return front + struct.pack("<II", 0, crc(front))


def large(count):
    """A file of 4 KiB nodes."""
    return laid([entry(1, 1, 2, b"large"), *(inode(2, k + 1, 4096 * k, 4096 * count, bytes(4096)) for k in range(count))])


def mixed(count):
    """The numbers up to a count in no order."""
    numbers = list(range(count))
    random.Random(1).shuffle(numbers)
    return numbers


def names(count):
    """A directory of many names of one file."""
    return laid([inode(2, 1, 0, 0, b""), *(entry(1, k + 1, 2, b"%06d" % k) for k in mixed(count))])


def depths(count):
    """Directories in one another."""
    return laid(node for k in range(count) for node in (entry(k + 1, 1, k + 2, b"d"), inode(k + 2, 1, 0, 0, b"", DIRECTORY)))


def deep_damage(depth, count):
    """A file below so many directories with long names, of whose nodes all but the first have damaged data; and the lines of
    those."""
    nodes, path = [], b""
    for k in range(depth):
        name = b"%06d" % k + b"d" * 244
        path += b"/" + name
        nodes += [entry(k + 1, 1, k + 2, name), inode(k + 2, 1, 0, 0, b"", DIRECTORY)]
    file = depth + 2
    nodes += [entry(depth + 1, 2, file, b"f"), inode(file, 1, 0, 4, b"data")]
    for k in range(count):
        node = bytearray(inode(file, k + 2, 0, 4, b"%04x" % k))
        node[68] ^= 1
        nodes.append(bytes(node))
    image = laid(nodes)
    at, lines = image.index(nodes[-count]), []
    for k in range(count):
        if BLOCK - at % BLOCK < 72:
            at += BLOCK - at % BLOCK
        lines.append(b"%08x data-crc ino %d version %d bytes 0 to 4 hides %s/f\n" % (at, file, k + 2, path))
        at += 72
    lines.append(b"total damaged %d paths %d missing 0 gaps 0\n" % (count, count))
    return image, lines


def loops(count):
    """Directories that each hold the root, themselves and the next one."""
    for k in range(count):
        yield inode(k + 2, 1, 0, 0, b"", DIRECTORY)
        yield from (entry(k + 1, version, ino, name) for version, ino, name in ((1, 1, b"r"), (2, k + 1, b"s"), (3, k + 2, b"d")))


def circles(count):
    """The image of those."""
    return laid(loops(count))


def versions(count, order):
    """Nodes of one file over one range, in this order of their versions."""
    return laid([entry(1, 1, 2, b"a"), *(inode(2, k + 1, 0, 4, b"%04x" % (k & 0xFFFF)) for k in order(count))])


def rising(count):
    return versions(count, range)


def falling(count):
    return versions(count, lambda count: reversed(range(count)))


def shuffled(count):
    return versions(count, mixed)


def nested(count):
    """Nodes of one file, the range of each within that of the version before: two more pieces each."""
    return laid([entry(1, 1, 2, b"a"), *(zeros(2, k + 1, k, 2 * count, 2 * count - 2 * k) for k in range(count))])


def striped(count):
    """Nodes of one file of a byte each, side by side in no order, and an older one over all of them."""
    return laid([entry(1, 1, 2, b"a"), *(inode(2, k + 2, 2 * k, 2 * count, b"x") for k in mixed(count)), zeros(2, 1, 0, 2 * count, 2 * count)])


def turned(image):
    """Each byte of an image changed to one other value."""
    chance = random.Random(2)
    for at in range(len(image)):
        other = bytearray(image)
        other[at] ^= chance.randrange(1, 256)
        yield bytes(other)


def soups(count, length):
    """Nodes of few numbers, names and versions, with headers of any length, dead nodes and torn ends between."""
    chance = random.Random(3)
    for _ in range(count):
        # Few images have nodes that refuse them.
        kinds = KINDS if chance.randrange(8) == 0 else KINDS[:-2]
        yield laid([one_of(chance, kinds) for _ in range(length)])[: chance.randrange(length * 60)]


KINDS = ("entry",) * 4 + ("inode",) * 5 + ("zeros", "dead", "header", "other", "compressed", "incompatible")
MODES = (0o100644,) * 6 + (DIRECTORY, DIRECTORY, 0o120777, 0o010600, 0o170000, 0)
TYPES = (0x2003, 0x2004, 0x2006, 0xE008, 0xA0F7, 0x60F7, 0xE001, 0xE002)
LENGTHS = (0, 11, 12, 13, 40, 68, 300, 4095, LONGEST)
NAMES = (b"a", b"a", b"b", b"b", b"/", b".", b"\0", b"\xff\\ ", b"c" * 254)


def one_of(chance, kinds):
    """A node of one of these kinds."""
    kind, version = chance.choice(kinds), chance.choice((chance.randrange(9), chance.randrange(10000)))
    few = lambda *others: chance.choice((2, 3, 4, 5, 6, *others))
    if kind in ("entry", "dead"):
        node = entry(few(1, 1, 1), version, few(0, 1, LONGEST), chance.choice(NAMES))
        return node[:3] + b"\xc0" + node[4:] if kind == "dead" else node
    if kind == "inode":
        data, size = bytes(chance.choices(b"qwerty\xff", k=chance.choice((0, 1, 6, 9)))), chance.choice((0, 3, 9, 20, 5000))
        at = chance.choice((0, 0, 1, 5, 10, LONGEST - 9))
        number = few(LONGEST) if chance.randrange(30) else 1
        return inode(number, version, at, size, data, chance.choice(MODES))
    if kind == "zeros":
        return zeros(few(), version, chance.choice((0, 2, 7)), chance.choice((0, 4, 8, 600)), chance.choice((0, 1, 9, LONGEST - 7)))
    if kind == "other":
        return chance.choice((b"\x19\x85", b"\x84\x19", b"\x00\x00")) * chance.randrange(1, 20)
    if kind == "compressed":
        front = header(0xE002, 68) + struct.pack("<IIIHHIIIIIIIBBH", 7, 1, DIRECTORY, 0, 0, 0, 0, 0, 0, 0, 0, 9, 6, 6, 0)
        return front + struct.pack("<II", 0, crc(front))
    return header(0xE0F7, 12) if kind == "incompatible" else header(chance.choice(TYPES), chance.choice(LENGTHS))
