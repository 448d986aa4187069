#!/usr/bin/env python3
"""Writes crates/format_tests/src/compr/vectors.rt: tests/peers/vectors.py

Streams of zlib at each level and strategy and flush, of liblzo2's packers, of a packer of RTIME, and streams that are written bit
by bit for the edges of the formats. Each is a line of METHOD SIZE DATA CHECKSUM, where the checksum is that of the content as
the peer makes it (streams.py), and '-' where it refuses. It is the checksum of JFFS2. Needs liblzo2 (Debian: liblzo2-2).
"""
import os
import random
import zlib

import streams
from streams import FIXED, Bits, codes_of, wrapped

ROOT = os.path.join(os.path.dirname(os.path.abspath(__file__)), "../..")
NUMBERS = {"rtime": 2, "zlib": 6, "lzo": 7}
WORDS = "the flash a node of erase block and data log version inode entry name wear level garbage collect mount".split()

HEAD = '''//! Streams and what they stand for, as zlib, liblzo2 and a model of RTIME have it. Written by tests/peers/vectors.py.

'''


def checksum(content):
    """The checksum of JFFS2, or '-' for none."""
    return "-" if content is None else f"{zlib.crc32(content, 0xFFFFFFFF) ^ 0xFFFFFFFF:08x}"


class Lines:
    """Lines of streams, each once: of those that are refused wherever they are cut and for a length of one more or less, and of
    all others."""

    def __init__(self):
        self.whole, self.others = {}, {}

    def add(self, method, size, data, wanted=None):
        """Adds a stream. `wanted` is whether it must be accepted, where that is known."""
        content = streams.CONTENTS[method](data, size)
        assert wanted is None or wanted == (content is not None), (method, size, data.hex())
        lines = self.whole if content is not None and is_whole(method, size, data) else self.others
        lines[f"{NUMBERS[method]} {size} {data.hex() or '-'} {checksum(content)}"] = None


def is_whole(method, size, data):
    """Whether a stream of at most 128 bytes is refused wherever it is cut and for other lengths."""
    content = streams.CONTENTS[method]
    cut = (content(data[:end], size) for end in range(len(data)))
    longer, shorter = content(data, size + 1), content(data, size - 1) if size else None
    return len(data) <= 128 and longer is None and shorter is None and all(one is None for one in cut)


def text(count, seed=1):
    """Text of so many bytes."""
    pick = random.Random(seed)
    words = ""
    while len(words) < count:
        words += pick.choice(WORDS) + " "
    return words[:count].encode()


def of_zlib(lines):
    """What zlib packs."""
    one, pick = text(96), random.Random(2)
    skewed = bytes(pick.choices(range(12), [1 << n for n in range(12)], k=110))
    for strategy in streams.STRATEGIES:
        for level in range(10):
            lines.add("zlib", len(one), streams.zlib_packed(one, level, strategy), True)
        lines.add("zlib", len(skewed), streams.zlib_packed(skewed, 9, strategy), True)
    for strategy in streams.STRATEGIES:
        for flush in streams.FLUSHES:
            lines.add("zlib", len(one), streams.zlib_packed(one, 6, strategy, flush, 41), True)
    for window in range(9, 16):
        lines.add("zlib", 96, streams.zlib_packed(one, 9, window=window), True)
    for content in (b"", b"a", bytes(range(256)), bytes(4096), text(500), pick.randbytes(20)):
        lines.add("zlib", len(content), streams.zlib_packed(content), True)
    packed = streams.zlib_packed(one)
    lines.add("zlib", 96, packed + b"more", True)
    for place in range(1, 5):
        lines.add("zlib", 96, packed[:-place] + bytes((packed[-place] ^ 1,)) + packed[len(packed) - place + 1 :], False)


def headers(lines):
    """Each first byte with a right check, a dictionary, and each second byte behind 0x78."""
    rest = streams.zlib_packed(b"a")[2:]
    for first in range(256):
        for flags in (0, 32):
            front = bytes((first, flags + -(first * 256 + flags) % 31))
            if first % 16 == 8 or first in (0, 7, 9, 0x77, 0x79, 0xFF):
                lines.add("zlib", 1, front + rest, first % 16 == 8 and first < 128 and flags == 0)
    for flags in range(0, 256, 17):
        lines.add("zlib", 1, bytes((0x78, flags)) + rest)


def block_edges(lines):
    """Kinds of blocks, stored blocks, several blocks."""

    def bits(write, content, wanted):
        lines.add("zlib", len(content), wrapped(write.bytes(), content), wanted)

    end = FIXED[0][256]
    bits(Bits().front(1).code(end), b"", True)
    bits(Bits().front(3), b"", False)
    bits(Bits().front(1, 0).code(end).front(3), b"", False)
    bits(Bits().front(1, 0).code(end), b"", False)
    bits(Bits().stored(b""), b"", True)
    bits(Bits().stored(b"xyz"), b"xyz", True)
    for mask in (0, 0xFFFE, 0x7FFF, 0xFEFF):
        bits(Bits().stored(b"xyz", mask=mask), b"xyz", False)
    bits(Bits().stored(b"ab", 0).stored(b"", 0).stored(b"c"), b"abc", True)
    mixed = Bits().front(1, 0).code(FIXED[0][120]).code(end).stored(b"yz", 0).front(1)
    bits(mixed.copy(FIXED, 3, 3).copy(FIXED, 4, 1).code(end), b"xyzxyzzzzz", True)
    # What fills the rest of a byte in front of a stored block, and in front of the checksum, is free.
    bits(Bits().front(0).number(31, 5).number(1, 16).number(0xFFFE, 16).number(0x61, 8), b"a", True)
    bits(Bits().front(1).code(FIXED[0][97]).code(end).number(63, 6), b"a", True)
    for ending in (b"", b"\x00", b"\x00\x62\x00", b"\x00\x62\x00\x63"):
        lines.add("zlib", 1, b"\x78\x01" + Bits().stored(b"a").bytes() + ending)


def copy_edges(lines):
    """Lengths and distances at their edges."""

    def fixed(write, content, wanted=True):
        lines.add("zlib", len(content), wrapped(write.code(FIXED[0][256]).bytes(), content), wanted)

    def literals(content):
        write = Bits().front(1)
        for byte in content:
            write.code(FIXED[0][byte])
        return write

    every = literals(b"a")
    for length in range(3, 259):
        every.copy(FIXED, length, 1)
    fixed(every, b"a" * (1 + sum(range(3, 259))))
    fixed(literals(b"a").copy(FIXED, 258, 1, 284), b"a" * 259)
    for back in (1, 2, 3, 4, 5, 257, 258):
        content = text(4, 9)
        write = literals(content).copy(FIXED, 258, 3)
        content += (content[1:] * 90)[:258]
        if back == 3:
            fixed(write, content)
        for distance in (len(content), len(content) + 1):
            whole = content + content[:back]
            again = literals(content[:4]).copy(FIXED, 258, 3).copy(FIXED, max(back, 3), distance)
            if back >= 3:
                fixed(again, whole, distance == len(content))
    fixed(literals(b"").copy(FIXED, 3, 1), b"\0\0\0", False)
    fixed(literals(b"ab").copy(FIXED, 3, 3), b"ab\0ab", False)
    far(fixed, literals)
    for symbol in (286, 287):
        fixed(literals(b"a").code(FIXED[0][symbol]).code(FIXED[1][0]), b"aaaa", False)
    for symbol in (30, 31):
        fixed(literals(b"a").code(FIXED[0][257]).code(FIXED[1][symbol]).number(0, 14), b"aaaa", False)


def far(fixed, literals):
    """Each edge of a distance symbol, and one past the beginning."""
    period = text(251, 4)
    for missing in (0, 1):
        content = (period * 132)[: 32768 - missing]
        write, out = literals(period), len(period)
        while out < len(content):
            count = min(258, len(content) - out)
            count = count if count == len(content) - out or len(content) - out - count > 2 else count - 3
            write.copy(FIXED, count, 251)
            out += count
        if missing:
            fixed(write.copy(FIXED, 3, 32768), content + content[:3], False)
            continue
        for base, extra in streams.DISTANCES:
            for distance in (base, base + (1 << extra) - 1):
                write.copy(FIXED, 3, distance)
                for _ in range(3):
                    content += content[-distance : len(content) - distance + 1]
        fixed(write.copy(FIXED, 258, 32768), content + content[-32768:][:258])


def with_lengths(front, end=b""):
    """A stream of a block of its own codes that is written so far, filled with zeros."""
    return wrapped(front.number(0, 40).bytes(), end)


def table_edges(lines):
    """Sets of lengths of codes that are refused, and those at the edge of being so."""

    def own(literals, distances, wanted, body=(256,), content=b"", **more):
        write = Bits().dynamic(literals, distances, **more)
        codes = codes_of(literals)
        for symbol in body:
            write.code(codes[symbol] if isinstance(symbol, int) else symbol)
        lines.add("zlib", len(content), wrapped(write.bytes(), content), wanted)

    def at(count, **places):
        lengths = [0] * count
        for place, length in places.items():
            lengths[int(place[1:])] = length
        return lengths

    a_and_end = at(257, _97=1, _256=1)
    own(a_and_end, [0], True, (97, 97, 256), b"aa")
    own(at(257, _256=1), [0], True)
    own(at(257, _256=2), [0], False, ((0, 2),))
    own(at(257, _97=1), [0], False, ((0, 1),))
    own(at(257, _97=1, _98=1, _256=1), [0], False)
    own(at(257, _97=1, _256=2), [0], False)
    own(at(257, _97=2, _98=2, _99=2, _256=2), [0], True, (97, 99, 256), b"ac")
    copying = at(258, _97=2, _256=2, _257=1)
    own(copying, [1], True, (97, 257, (0, 1), 256), b"aaaa")
    own(copying, [1], False, (97, 257, (1, 1), 256), b"aaaa")
    own(copying, [0], False, (97, 257, (0, 1), 256), b"aaaa")
    own(copying, [0], True, (97, 256), b"a")
    own(copying, [2], False, (97, 257, (0, 2), 256), b"aaaa")
    own(copying, [1, 1], True, (97, 257, (0, 1), 256), b"aaaa")
    own(copying, [0, 1], True, (97, 97, 257, (0, 1), 256), b"aaaaa")
    own(copying, [1, 1, 1], False, (97, 257, (0, 1), 256), b"aaaa")
    own(copying, [1, 2], False, (97, 257, (0, 1), 256), b"aaaa")
    own(copying, [0] * 29 + [1], True, (97, 256), b"a")
    own(copying, [0] * 30 + [1], False, (97, 256), b"a")
    own(copying, [0] * 31 + [1], False, (97, 256), b"a")
    deep = list(range(1, 16)) + [15]
    own(deep[:15] + [0] * 241 + [15], deep, True, (14, 0, 13, 256), bytes((14, 0, 13)))
    own(deep[:15] + [0] * 241 + [14], deep, False, ((0, 1),))
    own(a_and_end + [0] * 29, [0], True, (97, 256), b"a")
    own(a_and_end + [0] * 30, [0], False, (97, 256), b"a")
    own(a_and_end + [0] * 31, [0], False, (97, 256), b"a")
    own([8] * 144 + [9] * 112 + [7] * 24 + [8] * 6, [5] * 30, False)
    for of_lengths in ([1] + [0] * 18, [2, 2, 2] + [0] * 16, [1, 1, 1] + [0] * 16, [0] * 19, [7] * 19):
        write = Bits().front(2).number(0, 10).number(15, 4)
        for place in streams.ORDER:
            write.number(of_lengths[place], 3)
        lines.add("zlib", 0, with_lengths(write), False)


def run_edges(lines):
    """Runs of lengths: none before the first, none past the end, and from literals over to distances."""
    of_lengths = [2, 2] + [0] * 14 + [2, 3, 3]
    codes = codes_of(of_lengths)

    def runs(hdist, symbols, wanted, body, content):
        write = Bits().front(2).number(0, 5).number(hdist, 5).number(15, 4)
        for place in streams.ORDER:
            write.number(of_lengths[place], 3)
        for symbol, value in symbols:
            write.code(codes[symbol]).number(value, {16: 2, 17: 3, 18: 7}.get(symbol, 0))
        for code in body:
            write.code(code)
        lines.add("zlib", len(content), wrapped(write.bytes(), content), wanted)

    # The lengths of 97 and of 256 are 1, all others are 0.
    front = [(18, 86), (1, 0), (18, 127), (18, 9)]
    a_end = ((0, 1), (0, 1), (1, 1))
    runs(0, front + [(1, 0), (0, 0)], True, a_end, b"aa")
    runs(9, front + [(1, 0), (17, 7)], True, a_end, b"aa")
    runs(9, front + [(1, 0), (17, 6)], False, a_end, b"aa")
    runs(8, front + [(1, 0), (17, 7)], False, a_end, b"aa")
    runs(0, [(16, 0)] + front + [(1, 0), (0, 0)], False, a_end, b"aa")
    runs(3, front + [(1, 0), (0, 0), (16, 0)], True, a_end, b"aa")
    runs(6, front + [(1, 0), (0, 0), (16, 3)], True, a_end, b"aa")
    runs(5, front + [(1, 0), (0, 0), (16, 3)], False, a_end, b"aa")
    # A run that goes on from the length of the symbol 256 into those of the distances: three ones are too many, and none is refused.
    runs(2, front + [(1, 0), (16, 0)], False, a_end, b"aa")
    runs(1, front + [(1, 0), (1, 0), (1, 0)], True, a_end, b"aa")
    runs(10, [(18, 86), (1, 0), (18, 127), (17, 7), (0, 0), (0, 0), (16, 2)], None, a_end, b"aa")
    runs(127 % 32, [(18, 127), (18, 127)], False, a_end, b"aa")


def of_lzo(lines):
    """What liblzo2 packs, and single instructions."""
    pick = random.Random(5)
    contents = [b"a", text(40), text(200), bytes(4096), pick.randbytes(20), bytes(range(19)) * 3]
    contents.append(pick.randbytes(40) + bytes(16400) + pick.randbytes(3))
    contents[-1] += contents[-1][:30]
    near = pick.randbytes(40)
    contents += [near + bytes(gap) + near[:20] + near[25:] for gap in (2000, 2040, 16320, 16384, 32700, 49100)]
    for content in contents:
        for packer in streams.LZO_PACKERS:
            data = streams.lzo_packed(content, packer)
            lines.add("lzo", len(content), data, True)
            lines.add("lzo", len(content), data + b"\0", False)
    end = b"\x11\0\0"
    for data, size in (
        (b"", 0),
        (b"\x11", 0),
        (b"\x11\0", 0),
        (end, 0),
        (end, 1),
        (b"\x15abcd" + end, 4),
        (b"\x12a" + end, 1),
        (b"\x14abc" + end, 3),
        (b"\x00\x01" + b"x" * 19 + end, 19),
        (b"\x00\x00\x01" + b"x" * 274 + end, 274),
        (b"\x01abcd" + end, 4),
        (b"\x0f" + b"y" * 18 + end, 18),
        (b"\x12a\x00\x00" + end, 3),
        (b"\x12a\x04\x00" + end, 3),
        (b"\x13ab\x04\x00" + end, 4),
        (b"\x14abc\x0b\x00xyz" + end, 8),
        (b"\x12a\x40\x00" + end, 4),
        (b"\x12a\x60\x00" + end, 5),
        (b"\x12a\x80\x00" + end, 6),
        (b"\x12a\xe0\x00" + end, 9),
        (b"\x12a\x40\x01" + end, 4),
        (b"\x12a\x21\x00\x00" + end, 4),
        (b"\x12a\x20\x01\x00\x00" + end, 35),
        (b"\x12a\x20\x00\x01\x00\x00" + end, 290),
        (b"\x12a\x3f\x00\x00" + end, 34),
        (b"\x12a\x21\x04\x00" + end, 4),
        (b"\x12a\x21\x02\x00xy" + end, 6),
        (b"\x12a\x11\x04\x00" + end, 4),
        (b"\x20", 0),
        (b"\x12a" + b"\x20" + b"\0" * 9, 1),
    ):
        lines.add("lzo", size, data)
    # Copies from 2,049 back behind four literals, and from 16,385 and 49,151 back.
    for gap, copy, count in ((2048, b"\x00\x00", 3), (16384, b"\x12\x04\x00", 4), (49150, b"\x1a\xfc\xff", 4)):
        front = streams.lzo_packed(b"x" + bytes(gap - 4), "lzo1x_999_compress")[:-3]
        size = gap - 3
        for literals in (4, 3):
            run = bytes((literals - 3,)) + b"wxyz"[:literals]
            # The state after a copy without literals is 0, so a run of literals may follow.
            lines.add("lzo", size + literals + count, front + run + copy + end)


def of_rtime(lines):
    """What the packer of RTIME packs, and its edges."""
    pick = random.Random(6)
    for content in (b"", b"a", text(60), bytes(700), pick.randbytes(10), bytes(range(40)) * 2, b"ab" * 200):
        lines.add("rtime", len(content), streams.rtime_packed(content), True)
    packed = streams.rtime_packed(text(60))
    lines.add("rtime", 60, packed + b"\x01\x02\x03", True)
    for data, size in ((b"a\xff", 256), (b"a\xff", 255), (b"a\0a\xff", 257), (b"a\0b\0a\x05", 8), (b"a\0b\0a\x05", 7), (b"a", 0), (b"a", 1)):
        lines.add("rtime", size, data)


def repaired(lines):
    """Streams of DEFLATE of which one bit of a byte was changed, with the checksum of what zlib makes of them."""
    pick = random.Random(7)
    skewed = bytes(pick.choices(b"abcdefgh", [64, 32, 16, 8, 4, 2, 1, 1], k=90)) + text(20)
    for content, strategy in ((text(40), zlib.Z_FIXED), (skewed, zlib.Z_DEFAULT_STRATEGY)):
        whole = streams.zlib_packed(content, 9, strategy)[2:-4]
        for place in range(len(whole)):
            flipped = bytes((whole[place] ^ 1 << pick.randrange(8),))
            changed = whole[:place] + flipped + whole[place + 1 :] + bytes(4)
            made = streams.raw_content(changed)
            if made and made[0] != content:
                lines.add("zlib", len(made[0]), wrapped(changed[: made[1]], made[0]), True)


def changed():
    """Lines of METHOD SIZE DATA MASK and, for each byte of the data in turn, the checksum of the content where its bits of the mask
    are changed."""
    row = bytes.fromhex("1a616263646566676820610120272400830178797a960261622b5c00fc00110000")
    lines = []
    for method, size, data in (
        ("zlib", 40, streams.zlib_packed(text(40))),
        ("zlib", 6, streams.zlib_packed(b"stored", 0)),
        ("lzo", 59, row),
        ("lzo", 60, streams.lzo_packed(text(60), "lzo1x_999_compress")),
        ("rtime", 60, streams.rtime_packed(text(60))),
    ):
        for mask in (0x01, 0x08, 0x20, 0xFF):
            each = [data[:k] + bytes((data[k] ^ mask,)) + data[k + 1 :] for k in range(len(data))]
            sums = [checksum(streams.CONTENTS[method](one, size)) for one in each]
            lines.append(f"{NUMBERS[method]} {size} {data.hex()} {mask:02x} {','.join(sums)}")
    return lines


def pieces(line):
    """A line in pieces that a string in the source joins. None begins with a space, which the source would lose."""
    while len(line) > 96:
        cut = 95 if line[95] == " " else 96
        cut -= line[cut] == " "
        yield line[:cut] + "\\"
        line = line[cut:]
    yield line + "\\n\\"


def constant(name, doc, lines):
    """A constant of lines, no line of the file longer than 100 columns."""
    rows = [row for line in lines for row in pieces(line)]
    rows[-1] = rows[-1].removesuffix("\\n\\") + '";\n'
    return "\n".join([f"/// {doc}", f'pub(crate) const {name}: &str = "\\', *rows])


def main():
    lines = Lines()
    for add in (of_zlib, headers, block_edges, copy_edges, table_edges, run_edges, of_lzo, of_rtime, repaired):
        add(lines)
    tables = (
        ("WHOLE", "METHOD SIZE DATA CHECKSUM of streams that are refused where they are cut.", lines.whole),
        ("STREAMS", "METHOD SIZE DATA CHECKSUM of other streams, '-' for those that are refused.", lines.others),
        ("CHANGED", "METHOD SIZE DATA MASK CHECKSUM,CHECKSUM,.. with each byte changed in turn.", changed()),
    )
    with open(f"{ROOT}/crates/format_tests/src/compr/vectors.rt", "w", encoding="utf-8") as file:
        file.write(HEAD + "\n".join(constant(*table) for table in tables))
    print(", ".join(f"{len(table[2])} {table[0]}" for table in tables))


if __name__ == "__main__":
    main()
