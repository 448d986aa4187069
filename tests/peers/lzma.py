#!/usr/bin/env python3
"""LZMA by other encoders: tests/peers/lzma.py [--program PROGRAM] [--rounds N] [--data] [--vectors]

Makes streams by liblzma (Python's lzma) and, where `7zz` is at hand (Debian: 7zip), by 7-Zip, whose encoder OpenWrt's mkfs.jffs2
has. They stand in nodes of images in both orders, mixed with ZLIB and RTIME; some are cut or changed. What `decompress` prints,
and each byte that it writes, have to be those of tests/decompress_model.py. Status 1 where anything is another.

--data writes tests/data/lzma.img (little order, from default.img: LZMA beside ZLIB and RTIME) and lzma_big.img (big order, from
lzo.img: LZMA alone). --vectors writes crates/format_tests/src/compr/lzma_vectors.rt.
"""
import argparse
import glob
import os
import random
import re
import struct
import subprocess
import sys
import tempfile

HERE = os.path.dirname(os.path.abspath(__file__))
# The module of this name is Python's own; this folder comes behind it.
sys.path[:] = [folder for folder in sys.path if os.path.abspath(folder or ".") != HERE] + [os.path.dirname(HERE)]
import lzma  # noqa: E402

import compressed_images as images  # noqa: E402
import decompress_model as model  # noqa: E402
import hostile_model  # noqa: E402
import lzma_model  # noqa: E402

TOP = os.path.join(HERE, "../..")
PROPERTIES = {"dict_size": 8192, "lc": 0, "lp": 0, "pb": 0}
CHUNKS, MARKED = [{"id": lzma.FILTER_LZMA2, **PROPERTIES}], [{"id": lzma.FILTER_LZMA1, **PROPERTIES}]
WORDS = "-t7z -mmt=1 -mhc=off -ms=off -mf=off -mx=9 -m0=LZMA:d=8k:lc=0:lp=0:pb=0:fb=273".split()


def by_liblzma(content):
    """liblzma's stream without a mark: what its one chunk of LZMA2 holds, or None where that is stored."""
    chunks = lzma.compress(content, format=lzma.FORMAT_RAW, filters=CHUNKS)
    if not content or chunks[0] < 0xE0 or 6 + struct.unpack_from(">H", chunks, 3)[0] + 1 != len(chunks) - 1:
        return None
    return chunks[6:-1]


def with_mark(content):
    return lzma.compress(content, format=lzma.FORMAT_RAW, filters=MARKED)


def by_7zip(contents):
    """7-Zip's streams of contents that are not empty, in an archive that packs each by itself; None without 7-Zip."""
    with tempfile.TemporaryDirectory() as place:
        for number, content in enumerate(contents):
            with open(f"{place}/{number:05}", "wb") as file:
                file.write(content)
        names = [f"{number:05}" for number in range(len(contents))]
        try:
            subprocess.run(["7zz", "a", *WORDS, "all.7z", *names], cwd=place, check=True, stdout=subprocess.DEVNULL)
        except FileNotFoundError:
            return None
        told = subprocess.run(["7zz", "l", "-slt", "all.7z"], cwd=place, check=True, capture_output=True, text=True).stdout
        with open(f"{place}/all.7z", "rb") as file:
            archive = file.read()
    at, streams = 32, []
    for block in told.split("----------")[1].strip().split("\n\n"):
        fields = dict(line.split(" = ", 1) for line in block.splitlines() if " = " in line)
        streams.append(archive[at : at + int(fields["Packed Size"])])
        at += int(fields["Packed Size"])
    return streams


def some_contents(count, pick):
    texts = b"".join(open(name, "rb").read() for name in sorted(glob.glob(f"{TOP}/docs/*.md")))
    with open("/bin/bash", "rb") as file:
        code = file.read()[4096:]
    for number in range(count):
        size = pick.choice((pick.randrange(1, 64), pick.randrange(1, 1024), 4096))
        pool = (texts, code)[number % 2]
        start = pick.randrange(len(pool) - size)
        few = bytes(pick.choices(b"abcdefgh", k=pick.randrange(1, 9)))
        yield (pool[start : start + size], bytes([number % 5]) * size, (few * size)[:size], pick.randbytes(size))[
            pick.choice((0, 0, 0, 1, 2, 3))
        ]


def wrong(data, size, pick):
    """A stream that is cut, changed or asked for another length."""
    kind, changed = pick.randrange(3), bytearray(data)
    if kind == 0:
        return data[: pick.randrange(len(data))], size
    if kind == 1:
        return data, max(0, size + pick.choice((-1, 1, -7, 40)))
    changed[pick.randrange(len(data))] ^= 1 << pick.randrange(8)
    return bytes(changed), size


def image_of(make, streams, pick, bad):
    """A file of each stream, and files of the other methods between; the streams of `bad` are wrong."""
    for number, (content, data) in enumerate(streams):
        ino, size = number + 2, len(content)
        if number in bad:
            data, size = wrong(data, size, pick)
        yield make.entry(1, ino, ino, b"f%d" % ino)
        if number % 4 == 3:
            yield make.packed(pick.choice((images.ZLIB, images.RTIME)), ino, 1, content[:10])
        yield make.inode(ino, 2, data, size, images.LZMA, size)


def agrees(program, image, order, place):
    """Whether `decompress` prints and writes what the model says of an image, and whether that is a fault."""
    with open(f"{place}/image", "wb") as file:
        file.write(image)
    if os.path.exists(f"{place}/out"):
        os.remove(f"{place}/out")
    words = [program, "decompress", "--endian", order, f"{place}/image", f"{place}/out"]
    done = subprocess.run(words, capture_output=True)
    made, fault = model.decompress(image, 65536, images.ORDERS[order])
    if made is None:
        return done.returncode == 1 and fault.encode() in done.stderr and not os.path.exists(f"{place}/out"), True
    line = b"decompressed %d nodes %d bytes %d\n" % (made.changed, made.nodes, len(made.image))
    with open(f"{place}/out", "rb") as file:
        return done.stdout == line and file.read() == made.image, False


def compared(program, rounds):
    pick, counts = random.Random(8), {"liblzma": 0, "7-Zip": 0, "images": 0, "refused": 0, "other": 0}
    contents = list(some_contents(40 * rounds, pick))
    seven = by_7zip(contents) or [None] * len(contents)
    streams = []
    for content, second in zip(contents, seven):
        for name, data in (("liblzma", by_liblzma(content)), ("7-Zip", second)):
            if data is not None:
                assert lzma_model.content(data, len(content)) == content
                assert model.content(8, with_mark(content), len(content)) is None or len(content) == 0
                streams.append((content, data))
                counts[name] += 1
    with tempfile.TemporaryDirectory() as place:
        for number in range(0, len(streams), 8):
            order = ("little", "big")[number // 8 % 2]
            make, some = images.Maker(images.ORDERS[order]), streams[number : number + 8]
            for bad in ((), (pick.randrange(8),)):
                is_so, refused = agrees(program, make.laid(image_of(make, some, pick, bad)), order, place)
                counts["images"], counts["refused"] = counts["images"] + 1, counts["refused"] + refused
                counts["other"] += not is_so
    print(*(f"{name} {count}" for name, count in counts.items()))
    return counts["other"] == 0


def repacked(name, order, keep):
    """An image of tests/data whose compressed nodes have LZMA in place of their method, but for those counted in `keep`."""
    with open(f"{TOP}/tests/data/{name}.img", "rb") as file:
        image = file.read()
    make, at, nodes, number = images.Maker(order), 0, [], 0
    while at + 12 <= len(image):
        magic, kind, length = struct.unpack_from(order + "HHI", image, at)
        if magic != 0x1985:
            at += 4
            continue
        node = image[at : at + length]
        at += length + -length % 4
        if kind == 0xE002 and node[56] > 1:
            dsize = struct.unpack_from(order + "I", node, 52)[0]
            content = model.content(node[56], node[68:], dsize)
            data = by_liblzma(content) or lzma_model.packed(content)
            number += 1
            if number not in keep:
                front = make.header(0xE002, 68 + len(data)) + node[12:48] + make.number(len(data)) + node[52:56] + b"\x08" + node[57:60]
                node = front + make.number(hostile_model.crc(data)) + make.number(hostile_model.crc(front)) + data
        if kind in (0xE001, 0xE002):
            nodes.append(node)
    return make.laid(nodes, 8192 if name == "default" else 65536)


def write_data():
    for name, out, order, keep in (("default", "lzma", "<", (4, 5)), ("lzo", "lzma_big", ">", ())):
        with open(f"{TOP}/tests/data/{out}.img", "wb") as file:
            file.write(repacked(name, order, keep))


def checksum(content):
    return "-" if content is None else f"{hostile_model.crc(content):08x}"


def is_whole(content, data):
    """Whether a stream is refused wherever it is cut, and for lengths of one more or less."""
    cut = (model.content(8, data[:end], len(content)) for end in range(len(data)))
    more, less = model.content(8, data, len(content) + 1), model.content(8, data, len(content) - 1) if len(content) > 1 else None
    return len(data) <= 64 and more is None and less is None and all(one is None for one in cut)


def rows_of(contents):
    """Lines of streams by each encoder: those that are refused where they are cut, and others."""
    whole, others = {}, {}
    for content, second in zip(contents, by_7zip(contents) or [None] * len(contents)):
        for data in (by_liblzma(content), second, lzma_model.packed(content)):
            if data is not None:
                lines = whole if is_whole(content, data) else others
                lines[f"8 {len(content)} {data.hex()} {checksum(content)}"] = None
                others[f"8 {len(content)} {(data + b'free').hex()} {checksum(content)}"] = None
        others[f"8 {len(content)} {with_mark(content).hex()} -"] = None
    return whole, others


def changed_rows(contents):
    """Streams of which one byte after the other is changed, in the bits of a mask, and the checksums of what they stand for."""
    for content, mask in zip(contents, (1, 16, 128)):
        data, sums = by_liblzma(content), []
        for place in range(len(data)):
            other = data[:place] + bytes((data[place] ^ mask,)) + data[place + 1 :]
            sums.append(checksum(model.content(8, other, len(content))))
        yield f"8 {len(content)} {data.hex()} {mask:02x} {','.join(sums)}"


def text_of(lines):
    """A text of lines as source has it, 96 columns wide at most."""
    broken = ("\\\n".join(re.findall(".{1,96}", line)) for line in lines)
    return "".join(f"{line}\\n\\\n" for line in broken)


def write_vectors():
    pick = random.Random(9)
    words = b"the flash a node of erase block and data log version inode entry name wear level "
    far = pick.randbytes(30) + bytes(3000)
    contents = [b"a", b"a" * 20, b"abcabcabcabcabcabc", bytes(4096), words, words[::-1] + words[:40], far + far[:30]]
    contents += [bytes(pick.choices(b"ab\0", k=60)) for _ in range(3)] + [pick.randbytes(12), bytes(range(256)) * 2]
    whole, others = rows_of(contents)
    parts = (
        ("WHOLE", "METHOD SIZE DATA CHECKSUM of streams that are refused where they are cut.", whole),
        ("STREAMS", "METHOD SIZE DATA CHECKSUM of other streams; '-' where they are refused.", others),
        ("CHANGED", "METHOD SIZE DATA MASK CHECKSUMS, one for each byte that is changed.", changed_rows(contents[4:7])),
    )
    head = "//! Streams of LZMA by liblzma and 7-Zip and what they stand for. Written by tests/peers/lzma.py.\n"
    with open(f"{TOP}/crates/format_tests/src/compr/lzma_vectors.rt", "w", encoding="utf-8") as file:
        file.write(head)
        for name, about, lines in parts:
            file.write(f'\n/// {about}\npub(crate) const {name}: &str = "\\\n{text_of(lines)}";\n')


def main():
    words = argparse.ArgumentParser(description=__doc__, formatter_class=argparse.RawDescriptionHelpFormatter)
    words.add_argument("--program", default=f"{TOP}/crates/jffs2_image/out/jffs2_image")
    words.add_argument("--rounds", type=int, default=10)
    words.add_argument("--data", action="store_true")
    words.add_argument("--vectors", action="store_true")
    asked = words.parse_args()
    if asked.data:
        write_data()
    if asked.vectors:
        write_vectors()
    if not asked.data and not asked.vectors:
        sys.exit(not compared(os.path.abspath(asked.program), asked.rounds))


if __name__ == "__main__":
    main()
