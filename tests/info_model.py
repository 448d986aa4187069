#!/usr/bin/env python3
"""What `info` has to tell of an image, worked out from its bytes alone: info_model.py FILE prints the lines.

    $ printf 'hello' > /tmp/hello; tests/info_model.py /tmp/hello
    bytes 5
    order none
    block unknown
    nodes entries 0 inodes 0 obsolete 0 damaged 0 other 0
    data none 0 zero 0 rtime 0 zlib 0 lzo 0 lzma 0 other 0
    highest inode 0 version 0

It shares nothing with the crates. The layouts are those of include/uapi/linux/jffs2.h of Linux; the rules are those of
docs/FORMAT.md."""
import binascii
import math
import re
import struct
import sys

MAGIC, ACCURATE = 0x1985, 0x2000
DIRENT, INODE, MARKER = 0xE001, 0xE002, 0x2003
SIZES = range(4096, 4194305, 4)
# the smallest erase block, and how many regions are printed
UNIT, REGIONS = 4096, 16
LAYOUTS = [(512, 16), (2048, 64), (4096, 128), (4096, 224)]
BEGINNINGS = [(b'\x1f\x8b', 'gzip'), (b'\xfd7zXZ\0', 'xz'), (b'UBI#', 'UBI'), (b'hsqs', 'squashfs'),
              (b'HDR0', 'a TRX header'), (b'\x27\x05\x19\x56', 'a uImage header')]


def crc(data):
    """The checksum of Linux' crc32(0, ..): that of zip without its start and its end."""
    return binascii.crc32(data, 0xFFFFFFFF) ^ 0xFFFFFFFF


def walk(image, order):
    """The nodes in one byte order: address, length in whole words, kind, inode number, version, compression."""
    image = image + b'\xff' * (-len(image) % 4)
    place = 0
    while place + 12 <= len(image):
        magic, kind, totlen, hdr_crc = struct.unpack_from(order + 'HHII', image, place)
        if magic == MAGIC and 12 <= totlen <= len(image) - place:
            head = struct.pack(order + 'HHI', magic, kind | ACCURATE, totlen)
            if crc(head) == hdr_crc:
                tile = (totlen + 3) // 4 * 4
                yield (place, tile) + judged(image[place:place + tile], kind, totlen, order)
                place += tile
                continue
        place += 4


def whole_words(length):
    return (length + 3) // 4


def judged(tile, kind, totlen, order):
    if not kind & ACCURATE:
        return 'obsolete', 0, 0, None
    if kind == DIRENT:
        return judged_entry(tile, totlen, order)
    if kind == INODE:
        return judged_inode(tile, totlen, order)
    return ('marker' if kind == MARKER else 'other'), 0, 0, None


def judged_entry(tile, totlen, order):
    damaged = 'damaged', 0, 0, None
    if totlen < 40:
        return damaged
    pino, version, ino, _, nsize, _, node_crc, name_crc = struct.unpack_from(order + 'IIIIBBxxII', tile, 12)
    if node_crc != crc(tile[:32]) or whole_words(40 + nsize) != whole_words(totlen):
        return damaged
    if not 1 <= nsize <= 254 or pino == 0 or name_crc != crc(tile[40:40 + nsize]):
        return damaged
    return 'entry', max(pino, ino), version, None


def judged_inode(tile, totlen, order):
    damaged = 'damaged', 0, 0, None
    if totlen < 68:
        return damaged
    ino, version = struct.unpack_from(order + 'II', tile, 12)
    offset, csize, dsize, compr = struct.unpack_from(order + 'IIIB', tile, 44)
    data_crc, node_crc = struct.unpack_from(order + 'II', tile, 60)
    if node_crc != crc(tile[:60]) or whole_words(68 + csize) != whole_words(totlen):
        return damaged
    if ino == 0 or offset + dsize > 0xFFFFFFFF or (compr == 0 and csize != dsize):
        return damaged
    if csize and data_crc != crc(tile[68:68 + csize]):
        return damaged
    return 'inode', ino, version, compr


def sizes(nodes):
    markers = [node[0] for node in nodes if node[2] == 'marker']
    common = math.gcd(*markers)
    left = [size for size in SIZES if common % size == 0 and may_be(size, nodes)] if any(markers) else []
    if not left:
        return 'block unknown'
    return f'block from {left[0]} to {left[-1]} markers {len(markers)}'


def may_be(size, nodes):
    if size & (size - 1):
        return all(n <= size for _, n, *_ in nodes)
    return all(a // size == (a + n - 1) // size for a, n, *_ in nodes)


def hint(image, size, order):
    """The note that names the options that an image shows which was read in this order and blocks of this size; nothing where they
    may be its own."""
    little, big = list(walk(image, '<')), list(walk(image, '>'))
    found, nodes = ('>', big) if len(big) > len(little) else ('<', little)
    _, *told = sizes(nodes).split()
    least, greatest = (int(told[1]), int(told[3])) if told[0] == 'from' else (4, 4194304)
    if not nodes or (found == order and (told[0] != 'from' or least <= size <= greatest)):
        return ''
    name = {'<': 'little', '>': 'big'}[found]
    return f'jffs2_image: note: this looks like --endian {name} --block {greatest} (or --auto)\n'


def own_nodes(image):
    """The order that more nodes have, they, and those in the other one."""
    little, big = list(walk(image, '<')), list(walk(image, '>'))
    return ('big', big, little) if len(big) > len(little) else ('little', little, big)


def sound(image):
    return sum(node[2] in ('entry', 'inode') for node in own_nodes(image)[1])


def spare(image):
    """The layout by which most nodes are sound, if these are more than without one."""
    best, most = None, sound(image)
    for page, behind in LAYOUTS:
        stride = page + behind
        count = sound(b''.join(image[at:at + page] for at in range(0, len(image), stride)))
        if count > most:
            best, most = (page, behind), count
    return best


def unit_kinds(image):
    """Of each 4096 bytes of a file: < or > by the byte order of nodes that lie there, if any do; otherwise E if they are erased, and X."""
    owner = {'little': '<', 'big': '>'}[own_nodes(image)[0]]
    kinds = []
    for place in range(0, len(image), UNIT):
        kinds.append('E' if set(image[place:place + UNIT]) == {255} else 'X')
    # the file's own order is written last, so that it wins
    for order in sorted('<>', key=lambda order: order == owner):
        for address, length, *_ in walk(image, order):
            for unit in range(address // UNIT, (address + length - 1) // UNIT + 1):
                kinds[unit:unit + 1] = order if unit < len(kinds) else ''
    return ''.join(kinds)


def regions(image):
    """The lines on the regions of a dump: a pattern over the kinds of its units finds them."""
    found = []
    kinds = unit_kinds(image)
    for order in '<>':
        gap = '(?:E*X){0,15}E*'
        for run in re.finditer(f'{order}(?:{gap}{order})*', kinds):
            found.append((run.start() * UNIT, min(run.end() * UNIT, len(image)), {'<': 'little', '>': 'big'}[order]))
    found.sort()
    if len(found) == 1 and found[0][0] == 0:
        return []
    told = []
    for start, end, order in found[:REGIONS]:
        block = sizes(own_nodes(image[start:end])[1]).split(' markers')[0]
        told.append(f'region from 0x{start:08x} to 0x{end:08x} order {order} {block}')
    return told + ([f'more regions than these {REGIONS}'] if len(found) > REGIONS else [])


def lines(image):
    name, nodes, other = own_nodes(image)
    layout = spare(image) if any(node[2] == 'damaged' for node in nodes) else None
    kinds = [node[2] for node in nodes]
    ways = [node[5] for node in nodes if node[2] == 'inode']
    order = f"order {name} nodes {len(nodes)} other {len(other)}"
    counted = [kinds.count(kind) for kind in ('entry', 'inode', 'obsolete', 'damaged')]
    packed = [ways.count(way) for way in (0, 1, 2, 6, 7, 8)]
    return [
        f'bytes {len(image)}',
        order if nodes else 'order none',
        sizes(nodes),
        'nodes entries {} inodes {} obsolete {} damaged {} other {}'.format(*counted, len(nodes) - sum(counted)),
        'data none {} zero {} rtime {} zlib {} lzo {} lzma {} other {}'.format(*packed, len(ways) - sum(packed)),
        f'highest inode {max([n[3] for n in nodes], default=0)} version {max([n[4] for n in nodes], default=0)}',
        *([f'spare {layout[1]} after each {layout[0]}'] if layout else []),
        *regions(image),
    ]


def note(image):
    return next((f'the file begins as {name} does' for magic, name in BEGINNINGS if image.startswith(magic)), None)


def main():
    if len(sys.argv) != 2:
        sys.exit(__doc__)
    with open(sys.argv[1], 'rb') as file:
        image = file.read()
    print('\n'.join(lines(image)))
    if note(image):
        print('note:', note(image))


if __name__ == '__main__':
    main()
