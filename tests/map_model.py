"""What `map` and `map --svg` print of an image, by docs/FORMAT.md, byte by byte.

Which nodes are kept is that of compact_model.py, and tiles and nodes are those of hostile_model.py. It shares no code with the
program, and is slow.
"""
import itertools
import struct

import compact_model as compacting
import hostile_model as model

MARKS = {"live": "#", "superseded": "-", "obsolete": "o", "damaged": "!", "free": "."}
COLUMNS = "block  address       live superseded   obsolete    damaged       free"
PLAIN = {
    "marker": "clean marker",
    "padding": "padding",
    "obsolete": "node that is marked obsolete",
    "attribute": "extended attribute",
    "erased": "erased",
    "other-order": "words of the other byte order",
    "dirt": "dirt",
}


def kept_of(image, size, order):
    """The addresses of the nodes that `compact` keeps of an image that mounts through its compression."""
    nodes, _ = compacting.nodes_through(image, size, order)
    return {node.at for node in compacting.what_matters(nodes)}


def paths_of(image, size, order):
    """The text of the first path that leads to each number, in order of the numbers of directories and then of names."""
    nodes, _ = compacting.nodes_through(image, size, order)
    objects, names = model.tree(compacting.plain(nodes))
    entered, left = {1: ""}, [(1, entry) for entry in reversed(names.get(1, []))]
    while left:
        parent, (name, ino) = left.pop()
        if compacting.is_folder(objects, ino) and ino not in entered:
            entered[ino] = f"{entered[parent]}/{name_of(name)}"
            left += [(ino, entry) for entry in reversed(names.get(ino, []))]
    paths = {1: ""}
    for parent in sorted(set(names) & set(entered)):
        for name, ino in names[parent]:
            paths.setdefault(ino, f"{entered[parent]}/{name_of(name)}")
    return paths


def kind_of(what, at, kept):
    """Of which kind the bytes of a tile are."""
    if what in ("marker", "erased"):
        return "free"
    if what in ("damaged", "dirt", "other-order"):
        return "damaged"
    if what == "obsolete":
        return what
    return "live" if at in kept else "superseded"


def stretches(block, start, order):
    """The stretches of a block: address, bytes, what is there and what it holds; runs of one kind as one."""
    tiles = []
    for place, tile, head in model.tiles(block, order):
        what, held = model.seen(tile, head, order) if head else (model.runs_of(tile, order), None)
        tiles.append((start + place, tile, what, held, place if head else None))
    for _, run in itertools.groupby(tiles, key=lambda t: (t[2], t[4])):
        run = list(run)
        yield run[0][0], b"".join(t[1] for t in run), run[0][2], run[0][3]


def blocks_of(image, size, order):
    image += b"\xff" * (-len(image) % size)
    for start in range(0, len(image), size):
        yield start, list(stretches(image[start : start + size], start, order))


def counts(kinds):
    return "".join(f"{kinds.count(kind):11}" for kind in MARKS)


def text_of(image, size, order, kept):
    """What `map` prints."""
    lines, total = ["  ".join(f"{MARKS[kind]} {kind}" for kind in MARKS), COLUMNS], []
    for number, (start, parts) in enumerate(blocks_of(image, size, order)):
        kinds = [kind_of(what, at, kept) for at, data, what, _ in parts for _ in data]
        bar = "".join(MARKS[kinds[((i + 1) * size - 1) // 50]] for i in range(50))
        lines.append(f"{number:5} {start:08x}{counts(kinds)} {bar}")
        total += kinds
    lines.append(f"total         {counts(total)}")
    return "".join(line + "\n" for line in lines)


def name_of(name):
    text = model.escaped(name)
    return "".join(f"\\x{ord(c):02x}" if c in "&<>" else c for c in text)


def what_text(data, what, held, order):
    """What a stretch is, in words."""
    if what == "entry":
        return f"entry {name_of(held[5])} in directory {held[0]}, inode {held[2]}, version {held[1]}"
    if what == "inode":
        return f"inode {held[0]}, version {held[1]}, bytes {held[9]} to {held[9] + held[10]}"
    if what == "compressed":
        ino, version = struct.unpack_from(order + "2I", data, 12)
        return f"inode {ino}, version {version}, compressed"
    if what == "damaged":
        return f"damaged node: {held}"
    return PLAIN.get(what) or f"node of type {held:04x}"


def place_text(data, what, held, order, paths):
    """Where in the tree the object of a node is, or the name of an entry, if that is known."""
    if what == "entry" and held[0] in paths:
        return f", {paths[held[0]]}/{name_of(held[5])}"
    if what not in ("inode", "compressed"):
        return ""
    (ino,) = struct.unpack_from(order + "I", data, 12)
    return f", {paths[ino] or '/'}" if ino in paths else ""


def rect_of(at, data, what, held, start, order, kept, paths):
    kind = kind_of(what, at, kept)
    said = what_text(data, what, held, order) + place_text(data, what, held, order, paths)
    title = f"{kind} at {at:08x}, {len(data)} bytes: {said}"
    return f"<rect class='{kind}' x='{at - start}' width='{len(data)}' height='1'><title>{title}</title></rect>\n"


def picture_of(image, size, order, kept):
    """What `map --svg` prints."""
    number, paths = -(-len(image) // size), paths_of(image, size, order)
    colours = {"live": "2b8a3e", "superseded": "f59f00", "obsolete": "868e96", "damaged": "e03131", "free": "e9ecef"}
    places = {"live": 80, "superseded": 180, "obsolete": 320, "damaged": 440, "free": 560}
    out = f"<svg xmlns='http://www.w3.org/2000/svg' width='1088' height='{14 * number + 72}' font-family='monospace' font-size='11'>\n"
    out += "<title>Where the nodes of a JFFS2 image lie</title>\n"
    out += "<style>" + "".join(f".{kind}{{fill:#{colour}}}" for kind, colour in colours.items()) + "</style>\n"
    out += "<rect width='100%' height='100%' fill='#ffffff'/>\n"
    for kind, x in places.items():
        out += f"<rect class='{kind}' x='{x}' y='16' width='12' height='12'/><text x='{x + 18}' y='26'>{kind}</text>\n"
    for row, (start, parts) in enumerate(blocks_of(image, size, order)):
        y = 14 * row + 64
        out += f"<text x='8' y='{y + 10}'>{start:08x}</text>"
        out += f"<svg x='80' y='{y}' width='1000' height='12' viewBox='0 0 {size} 1' preserveAspectRatio='none'>\n"
        out += "".join(rect_of(*part, start, order, kept, paths) for part in parts) + "</svg>\n"
    return out + "</svg>\n"
