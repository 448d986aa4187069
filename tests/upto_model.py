"""What `cat --ino I --upto V` writes of an image, by docs/FORMAT.md: each byte by itself, of the nodes of one number up to a version.

Tiles and nodes are those of hostile_model.py, and the contents of compressed nodes those of decompress_model.py. It shares no code
with the program, and is slow.
"""
import compact_model as compacting
import decompress_model as expanding
import hostile_model as model

LAST = 0xFFFFFFFF


def fields_of(what, held):
    """The fields of an inode node, compressed or not."""
    return held[1] if what == "compressed" else held


def inode_tiles(image, size, order):
    """The sound inode nodes of an image, each with its address."""
    for at, tile, head in compacting.tiles_of(image, size, order):
        what, held = model.seen(tile, head, order) if head else (None, None)
        if what in ("inode", "compressed"):
            yield at, tile, what, held


def versions_of(image, size, order):
    """The versions of each number that has inode nodes."""
    found = {}
    for _, _, what, held in inode_tiles(image, size, order):
        fields = fields_of(what, held)
        found.setdefault(fields[0], set()).add(fields[1])
    return found


def nodes_upto(image, size, order, ino, version):
    """The expanded nodes of a number up to a version, and the first fault of one of them in their place: that of its data before a
    clash."""
    taken = []
    for at, tile, what, held in inode_tiles(image, size, order):
        fields = fields_of(what, held)
        if fields[0] == ino and fields[1] <= version:
            taken.append((at, tile, what, held))
    for at, _, what, held in taken:
        if fault := expanding.fault_through(at, what, held, size):
            return None, fault
    nodes = []
    for at, tile, what, held in taken:
        node = compacting.Node(at, tile, *expanding.expanded(what, held))
        if compacting.clash_of(nodes, node):
            return None, f"M5 Clash at {at:08x}"
        nodes.append(node)
    return nodes, None


def upto(image, size, order, ino, version=LAST):
    """The bytes that an object had, and why there are none."""
    nodes, fault = nodes_upto(image, size, order, ino, version)
    if fault:
        return None, fault
    if not nodes:
        return None, "I5 NoContent" if ino == 1 else "I4 NoInode"
    newest = max(nodes, key=lambda node: node.held[1]).held
    kind = newest[2] >> 12 & 15
    if ino == 1 and kind != 4:
        return None, "M6 RootKind"
    if kind not in (8, 10):
        return None, "I5 NoContent"
    return model.content(compacting.plain(nodes), ino, newest[5]), None
