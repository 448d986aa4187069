"""What `compact` prints and writes of an image, by docs/FORMAT.md: which nodes matter, each pair of
them against each other; and with `--clashes higher` which nodes stay.

Tiles, nodes and trees are those of hostile_model.py, and the contents of compressed nodes those of
decompress_model.py. It shares no code with the program, and is slow.
"""
import collections

import decompress_model as expanding
import hostile_model as model

# a node: its address, its bytes up to whole words, whether it is an entry or an inode node, and
# what it holds when it is expanded
Node = collections.namedtuple("Node", "at tile what held")
Compacted = collections.namedtuple("Compacted", "kept nodes image findings attributes left")
KINDS = expanding.KINDS


def tiles_of(image, size, order):
    """The tiles of an image with their addresses: runs that are no node's have no header."""
    image += b"\xff" * (-len(image) % size)
    for start in range(0, len(image), size):
        for at, tile, head in model.tiles(image[start : start + size], order):
            yield start + at, tile, head


def fault_of(at, what, held, size):
    """Why a node is refused by itself, or None; only of a compressed one a block must hold more."""
    fault = expanding.fault_of(at, what, held, size)
    if fault and fault.startswith("Z2") and what != "compressed":
        return None
    if fault or what != "compressed" or expanding.expanded(what, held):
        return fault
    return f"Z1 Data at {at:08x}"


def clash_of(nodes, node):
    """Whether a node of a lower address says something else of the same."""
    own = model.key(node.what, node.held)
    return any(n.what == node.what and model.key(n.what, n.held) == own and n.held != node.held for n in nodes)


def nodes_through(image, size, order, apart=False):
    """The nodes of an image through its compression, and the fault of least address in their place: a clash too, unless the nodes
    are to be parted."""
    nodes = []
    for at, tile, head in tiles_of(image, size, order):
        what, held = model.seen(tile, head, order) if head else (None, None)
        if fault := fault_of(at, what, held, size) if head else None:
            return None, fault
        if what in KINDS:
            node = Node(at, tile, *expanding.expanded(what, held))
            if not apart and clash_of(nodes, node):
                return None, f"M5 Clash at {at:08x}"
            nodes.append(node)
    return nodes, None


def parted(nodes):
    """The nodes that stay, and of each other one its address and the highest of one that clashes with it."""
    stay, left = [], []
    for node in nodes:
        above = [n.at for n in nodes if n.at > node.at and clash_of([n], node)]
        if above:
            left.append((node.at, max(above)))
        else:
            stay.append(node)
    return stay, left


def plain(nodes):
    """The nodes as hostile_model.py has them."""
    return [(node.at, node.what, node.held) for node in nodes]


def is_folder(objects, ino):
    return ino in objects and objects[ino][2] >> 12 == 4


def reached_of(nodes):
    """The numbers that names lead to from the root, and the objects."""
    objects, names = model.tree(plain(nodes))
    reached, left = {1}, [1]
    while left:
        ino = left.pop()
        for _, number in names.get(ino, []) if is_folder(objects, ino) else []:
            if number in objects and number not in reached:
                reached.add(number)
                left.append(number)
    return reached, objects


def is_above(node, other):
    """Whether a node counts more than another one of the same: of the higher version or address."""
    return (node.held[1], node.at) > (other.held[1], other.at)


def is_shown(node, above, size):
    """Whether a byte below the size is this node's: none above it has it."""
    left = set(range(node.held[9], min(node.held[9] + node.held[10], size)))
    for other in above:
        left -= set(range(other.held[9], min(other.held[9] + other.held[10], size)))
    return bool(left)


def matters(node, nodes, reached, objects):
    """Whether the tree has something of a node."""
    if node.what == "entry":
        pino, _, ino, _, _, name = node.held
        same = [n for n in nodes if n.what == "entry" and (n.held[0], n.held[5]) == (pino, name)]
        is_live = ino and not any(is_above(n, node) for n in same)
        return bool(is_live and pino in reached and is_folder(objects, pino) and ino in objects)
    ino = node.held[0]
    above = [n for n in nodes if n.what == "inode" and n.held[0] == ino and is_above(n, node)]
    return ino in reached and (not above or is_shown(node, above, objects[ino][5]))


def what_matters(nodes):
    reached, objects = reached_of(nodes)
    return [node for node in nodes if matters(node, nodes, reached, objects)]


def flash_fault(kept, size, blocks):
    """Why the nodes do not go out to so many blocks, or None."""
    for node in kept:
        if len(node.tile) + 12 > size:
            return f"Z2 TooLong at {node.at:08x}"
    tiles = [node.tile for node in kept]
    if expanding.blocks_of(tiles, size) > blocks:
        return f"S2 Full needed {sum(map(len, tiles))} free {blocks * (size - 12)}"
    return None


def is_written(size, blocks):
    return expanding.WRITING <= size <= 4194304 and 0 < blocks * size <= expanding.GREATEST_IMAGE


def compact(image, size=65536, order="<", blocks=None, apart=False):
    """What `compact` makes of an image, and the fault in place of it; where it is to be apart, that of `--clashes higher`."""
    if expanding.has_no_node(image, size, order):
        return None, "I1 NoNodes"
    if size not in expanding.READING:
        return None, "M1 BlockSize"
    found, fault = nodes_through(image, size, order, apart)
    if fault:
        return None, fault
    nodes, left = parted(found) if apart else (found, [])
    if not is_folder(model.tree(plain(nodes))[0], 1):
        return None, "M6 RootKind"
    seen = [model.seen(tile, head, order)[0] for _, tile, head in tiles_of(image, size, order) if head]
    if "read-only" in seen:
        return None, "S3 ReadOnly"
    blocks = expanding.GREATEST_IMAGE // size if blocks is None else blocks
    if not is_written(size, blocks):
        return None, "S7 Geometry"
    kept = what_matters(nodes)
    if fault := flash_fault(kept, size, blocks):
        return None, fault
    out = expanding.laid([node.tile for node in kept], size, order)
    _, _, _, findings = model.report(image, size, order)
    return Compacted(len(kept), len(found), out, findings, seen.count("attribute"), left), None


def line_of(made):
    """The line that is printed."""
    return f"compacted {made.kept} of {made.nodes} nodes bytes {len(made.image)}"


def notes_of(made):
    """The lines on standard error."""
    yield from (f"left out {at:08x}: clashes with {by:08x}" for at, by in made.left)
    if made.findings:
        word = "finding" if made.findings == 1 else "findings"
        yield f"jffs2_image: note: {made.findings} {word}, see check --scan; a wrong --block or --endian shows as findings too, see info"
    if made.attributes:
        yield f"jffs2_image: note: nodes of extended attributes, which are left out: {made.attributes}"


def shown(nodes):
    """The tree that nodes make: the lines of `ls`, and each reached object with its bytes."""
    reached, objects = reached_of(nodes)
    lines = list(model.listed(plain(nodes), 1, "", *model.tree(plain(nodes)), set()))
    files = {ino: (objects[ino][:9], model.content(plain(nodes), ino, objects[ino][5])) for ino in reached}
    return lines, files


def another(node):
    """A node of the same object, version and range, or of the same name and version, that says
    something else: of an entry that its name has no object, of an inode node each byte and its
    owner."""
    held = list(node.held)
    if node.what == "entry":
        held[2] = 0
    else:
        held[3] ^= 1
        held[11] = bytes(byte ^ 1 for byte in held[11]) if held[11] is not None else b"\1" * held[10]
    return node._replace(held=tuple(held))


def needless(nodes):
    """The nodes in place of which another one makes the same tree."""
    tree = shown(nodes)
    for place, node in enumerate(nodes):
        if shown([*nodes[:place], another(node), *nodes[place + 1 :]]) == tree:
            yield node.at
