"""What `check`, `ls` and `cat` print of an image, by the rules of docs/FORMAT.md in their plainest form: each byte of a file by itself,
each pair of nodes against each other. Little order, or with ">" the big one. It shares no code with the program, and is slow."""
import struct
import zlib

KINDS = {1: "p", 2: "c", 4: "d", 6: "b", 8: "-", 10: "l", 12: "s"}
MAGIC, ACCURATE = 0x1985, 0x2000


def crc(data):
    return zlib.crc32(data, 0xFFFFFFFF) ^ 0xFFFFFFFF


def pad4(length):
    return (length + 3) // 4 * 4


def word(data, at, order):
    return struct.unpack_from(order + "I", data, at)[0]


def good(block, at, order):
    """Type and length of the good header at a place of a block."""
    if at + 12 > len(block):
        return None
    if block[at] not in (0x19, 0x85):
        return None
    magic, kind, length, sum_ = struct.unpack_from(order + "HHII", block, at)
    if magic != MAGIC or sum_ != crc(struct.pack(order + "HHI", magic, kind | ACCURATE, length)):
        return None
    return (kind, length) if 12 <= length <= len(block) - at else None


def tiles(block, order):
    """The tiles of a block: place, bytes, and the header's type and length."""
    at = 0
    while at < len(block):
        head = good(block, at, order)
        size = pad4(head[1]) if head else 4 if len(block) - at >= 12 else len(block) - at
        yield at, block[at : at + size], head
        at += size


def escaped(name, spared=b""):
    return "".join(chr(b) if 0x21 <= b <= 0x7E and (b not in b"\\/" or b in spared) else f"\\x{b:02x}" for b in name)


def entry_seen(tile, length, order):
    if length < 40:
        return "damaged", "length"
    pino, version, ino, mctime = struct.unpack_from(order + "4I", tile, 12)
    size, kind = tile[28], tile[29]
    if word(tile, 32, order) != crc(tile[:32]):
        return "damaged", "node-crc"
    if pad4(40 + size) != pad4(length):
        return "damaged", "length"
    if not 1 <= size <= 254 or pino == 0:
        return "damaged", "range"
    name = tile[40 : 40 + size]
    if word(tile, 36, order) != crc(name):
        return "damaged", "name-crc"
    return "entry", (pino, version, ino, mctime, kind, name)


def inode_seen(tile, length, order):
    if length < 68:
        return "damaged", "length"
    ino, version, mode, uid, gid, isize, atime, mtime, ctime, offset, csize, dsize, compr = struct.unpack_from(order + "3I2H7IB", tile, 12)
    if word(tile, 64, order) != crc(tile[:60]):
        return "damaged", "node-crc"
    if pad4(68 + csize) != pad4(length):
        return "damaged", "length"
    if ino == 0 or offset + dsize > 0xFFFFFFFF or compr == 0 and csize != dsize:
        return "damaged", "range"
    data = tile[68 : 68 + csize]
    if csize and word(tile, 60, order) != crc(data):
        return "damaged", "data-crc"
    fields = (ino, version, mode, uid, gid, isize, atime, mtime, ctime, offset, dsize)
    if compr > 1:
        return "compressed", (compr, fields, data)
    return "inode", (*fields, None if compr else data)


def seen(tile, head, order):
    """What a node's tile is seen as, and what it holds."""
    kind, length = head
    plain = {0x2003: "marker", 0x2004: "padding", 0xE008: "attribute", 0xE009: "attribute"}
    if not kind & ACCURATE:
        return "obsolete", None
    if kind in plain:
        return plain[kind], None
    if kind == 0xE001:
        return entry_seen(tile, length, order)
    if kind == 0xE002:
        return inode_seen(tile, length, order)
    return {0xC000: "incompatible", 0x8000: "read-only"}.get(kind & 0xC000, "skipped"), kind


def told(at, size, what, held):
    """The line of a node's tile."""
    line = f"{at:08x} {what} {size}"
    if what == "entry":
        return line + " pino {} version {} ino {} type {} name {}".format(held[0], held[1], held[2], held[4], escaped(held[5]))
    if what == "inode":
        fill = "zero" if held[11] is None else "none"
        return line + f" ino {held[0]} version {held[1]} mode {held[2]:o} size {held[5]} offset {held[9]} data {held[10]} {fill}"
    if what == "compressed":
        return line + f" compr {held[0]}"
    return line + {"damaged": " {}"}.get(what, " type {:04x}" if held is not None else "").format(held)


def runs_of(data, order):
    other = struct.pack({"<": ">H", ">": "<H"}[order], MAGIC)
    return "erased" if data == b"\xff" * len(data) else "other-order" if data[:2] == other else "dirt"


def report(image, size, order="<"):
    """The lines of the report, and the nodes of the image with their addresses."""
    lines, nodes, run = [], [], None
    image += b"\xff" * (-len(image) % size)
    for start in range(0, len(image), size):
        lines.append(f"block {start // size}")
        run = None
        for at, tile, head in tiles(image[start : start + size], order):
            if head:
                what, held = seen(tile, head, order)
                nodes.append((start + at, what, held))
                lines.append(told(start + at, len(tile), what, held))
                run = None
            elif run and run[1] == runs_of(tile, order):
                run[2] += len(tile)
                lines[-1] = f"{run[0]:08x} {run[1]} {run[2]}"
            else:
                run = [start + at, runs_of(tile, order), len(tile)]
                lines.append(f"{run[0]:08x} {run[1]} {run[2]}")
    words = [line.split(" ")[1] for line in lines]
    found = sum(words.count(word) for word in ("attribute", "read-only", "incompatible", "compressed", "damaged", "other-order", "dirt"))
    noted = sum(words.count(word) for word in ("damaged", "other-order", "dirt"))
    lines.append(f"total blocks {len(image) // size} entries {words.count('entry')} inodes {words.count('inode')} findings {found}")
    return lines, nodes, found, noted


def key(what, held):
    """Which nodes it may clash with."""
    return (what, held[0], held[1], held[5]) if what == "entry" else (what, held[0], held[1])


def refusal(nodes):
    """Why the nodes do not mount, from the lowest address on; of a clash with the lowest address of the other node."""
    for place, (at, what, held) in enumerate(nodes):
        if what == "incompatible":
            return f"M3 Incompatible at {at:08x} type {held:04x}"
        if what == "compressed":
            return f"M4 Compressed at {at:08x} compr {held[0]}"
        if what in ("entry", "inode"):
            below = [(low, other) for low, kind, other in nodes[:place] if kind == what and key(kind, other) == key(what, held)]
            lower = [low for low, other in below if other != held]
            if lower:
                return f"M5 Clash at {at:08x} with {lower[0]:08x}"
    if 1 in inodes(nodes) and inodes(nodes)[1][2] >> 12 != 4:
        return "M6 RootKind"
    return None


def newest(nodes, what):
    """The node of highest version for each number, or for each directory and name."""
    found = {}
    for _, kind, held in nodes:
        if kind == what:
            name = held[0] if what == "inode" else (held[0], held[5])
            if name not in found or found[name][1] < held[1]:
                found[name] = held
    return found


def inodes(nodes):
    return newest(nodes, "inode")


def content(nodes, ino, size):
    """The bytes of a file, each from the highest version that covers it."""
    own = [held for _, what, held in nodes if what == "inode" and held[0] == ino]

    def byte(i):
        cover = [held for held in own if held[9] <= i < held[9] + held[10]]
        top = max(cover, key=lambda held: held[1], default=None)
        return top[11][i - top[9]] if top and top[11] is not None else 0

    return bytes(byte(i) for i in range(size))


def tree(nodes):
    """The objects by number and the live entries of each directory."""
    objects = inodes(nodes)
    objects.setdefault(1, (1, 0, 0o040755, 0, 0, 0, 0, 0, 0, 0, 0, b""))
    names = {}
    for (pino, name), held in newest(nodes, "entry").items():
        if held[2]:
            names.setdefault(pino, []).append((name, held[2]))
    return objects, {pino: sorted(held) for pino, held in names.items()}


def listed(nodes, ino, path, objects, names, met):
    """The lines of an object and of what is below it."""
    _, _, mode, uid, gid, size, _, mtime, *_ = objects[ino]
    kind = KINDS.get(mode >> 12 & 15, "?")
    line = f"{kind} {mode & 0o7777:04o} {uid} {gid} {size} {mtime} {ino} {path or '/'}"
    if kind == "l":
        line += " -> " + ("(long)" if size > 4095 else escaped(content(nodes, ino, size)))
    is_again = kind == "d" and ino in met
    yield line + (" (again)" if is_again else "")
    if kind == "d" and not is_again:
        met.add(ino)
        for name, number in names.get(ino, []):
            if number in objects:
                yield from listed(nodes, number, f"{path}/{escaped(name)}", objects, names, met)


def check(image, size=65536, order="<"):
    """What `check` prints, and its status."""
    lines, nodes, found, _ = report(image, size, order)
    fault = refusal(nodes)
    if fault:
        return lines + [f"mount refused {fault.partition(' with ')[0]}"], 3
    objects, names = tree(nodes)
    lines.append("mount ok" + (" read-only" if any(what == "read-only" for _, what, _ in nodes) else ""))
    dangling = [f"dangling pino {pino} ino {ino} name {escaped(name)}" for pino in sorted(names) for name, ino in names[pino] if ino not in objects]
    return lines + dangling, 3 if found or dangling else 0


def ls(image, size=65536, order="<"):
    """What `ls` prints, or why not."""
    _, nodes, _, noted = report(image, size, order)
    fault = refusal(nodes)
    return ([], fault, 0) if fault else (list(listed(nodes, 1, "", *tree(nodes), set())), None, noted)


def cat(image, name, size=65536, order="<"):
    """The bytes of the file of this name in the root, or why not."""
    _, nodes, _, _ = report(image, size, order)
    fault = refusal(nodes)
    return (b"", fault) if fault else file_of(nodes, name)


def missing(image, name, size=65536, order="<"):
    """How many bytes of the file of this name in the root no node has."""
    return missing_in(report(image, size, order)[1], name)


def missing_in(nodes, name):
    """The same of the nodes of an image that mounts."""
    objects, names = tree(nodes)
    ino = dict(names.get(1, [])).get(name)
    if ino not in objects or objects[ino][2] >> 12 != 8:
        return 0
    bare, end = 0, 0
    ranges = sorted((held[9], held[9] + held[10]) for _, what, held in nodes if what == "inode" and held[0] == ino)
    for start, stop in [*ranges, (objects[ino][5],) * 2]:
        bare += max(min(start, objects[ino][5]) - end, 0)
        end = max(end, stop)
    return bare


def missing_note(count, findings):
    """What `cat` says of so many bytes, of an image with so many findings."""
    return f"jffs2_image: note: bytes that no node has, zeros here: {count}; see damage\n".encode() if count and findings else b""


def file_of(nodes, name):
    """The same of the nodes of an image that mounts."""
    objects, names = tree(nodes)
    ino = dict(names.get(1, [])).get(name)
    if ino not in objects:
        return b"", "P3 Path NotFound"
    if objects[ino][2] >> 12 != 8:
        return b"", "P4 NotRegular"
    return content(nodes, ino, objects[ino][5]), None
