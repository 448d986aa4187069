"""What `history` prints of an image, by docs/FORMAT.md: each node against each other one.

Tiles and nodes are those of hostile_model.py, which nodes matter is that of compact_model.py. It shares no code with the program,
and is slow.
"""
import collections
import hashlib

import compact_model as compacting
import hostile_model as model

WORDS = ("live", "superseded", "deleted", "deletion", "unreached", "obsolete")
ENTRY = "pino version ino mctime type".split()
INODE = "ino version mode uid gid isize atime mtime ctime offset dsize".split()
# where the number of the method is in an inode node
COMPR = 56
MTIME = INODE.index("mtime")


def same_name(node, other):
    return other.what == "entry" and (other.held[0], other.held[5]) == (node.held[0], node.held[5])


def newest_entries(nodes):
    """Of each name of each directory the entry that counts."""
    entries = [node for node in nodes if node.what == "entry"]
    return [node for node in entries if not any(same_name(node, n) and compacting.is_above(n, node) for n in entries)]


def word_of(node, live, newest, reached):
    """What became of a node."""
    if node in live:
        return "live"
    if node.what == "inode":
        if node.held[0] in reached:
            return "superseded"
        return "unreached" if any(entry.held[2] == node.held[0] for entry in newest) else "deleted"
    if node.held[2] == 0:
        return "deletion"
    if node in newest:
        return "unreached"
    return "superseded" if any(same_name(node, entry) and entry.held[2] for entry in newest) else "deleted"


def fields_of(node):
    if node.what == "entry":
        numbers = " ".join(f"{name} {number}" for name, number in zip(ENTRY, node.held))
        return f"entry {numbers} name {model.escaped(node.held[5])}"
    numbers = " ".join(f"{name} {number:o}" if name == "mode" else f"{name} {number}" for name, number in zip(INODE, node.held))
    return f"inode {numbers} compr {node.tile[COMPR]}"


def number_of(node):
    """The number of the object that a node is of, or that its name stands for."""
    return node.held[2] if node.what == "entry" else node.held[0]


def former(nodes, path):
    """The numbers of the objects that a path ever named, or None."""
    if path == b"/":
        return {1}
    objects, names = model.tree(compacting.plain(nodes))
    here, *front, last = 1, *path.split(b"/")[1:]
    for name in front:
        here = dict(names.get(here, [])).get(name) if compacting.is_folder(objects, here) else None
        if here not in objects:
            return None
    found = {node.held[2] for node in nodes if node.what == "entry" and (node.held[0], node.held[5]) == (here, last)}
    return found - {0} or None


def obsolete_of(image, size, order):
    """The lines of the nodes that are marked obsolete."""
    for at, tile, head in compacting.tiles_of(image, size, order):
        if head and model.seen(tile, head, order)[0] == "obsolete":
            yield at, "obsolete", f"length {len(tile)}"


def is_told(node, numbers, since, until):
    """Whether a node is of these numbers and of this time."""
    time = node.held[3] if node.what == "entry" else node.held[MTIME]
    return (numbers is None or number_of(node) in numbers) and (since is None or since <= time) and (until is None or time <= until)


def body_of(nodes, ino):
    """The bytes of a regular file or a symlink by all its nodes; of any other object None."""
    objects, _ = model.tree(compacting.plain(nodes))
    found = objects.get(ino)
    return model.content(compacting.plain(nodes), ino, found[5]) if found and found[2] >> 12 & 15 in (8, 10) else None


def was_of(nodes, ino):
    """What is left of an object."""
    versions = [node.held[1] for node in nodes if node.what == "inode" and node.held[0] == ino]
    line = f"was ino {ino}" + (f" versions {min(versions)} to {max(versions)}" if versions else "")
    body = body_of(nodes, ino)
    if body is not None:
        line += f" size {len(body)} sha256 {hashlib.sha256(body).hexdigest()}"
    return line + "\n"


def text_of(image, size, order, nodes, numbers=None, since=None, until=None):
    """What `history` prints of an image of these nodes, of all objects or of those of these numbers, and of these times."""
    reached, _ = compacting.reached_of(nodes)
    live, newest = compacting.what_matters(nodes), newest_entries(nodes)
    told = [node for node in nodes if is_told(node, numbers, since, until)]
    lines = [(node.at, word_of(node, live, newest, reached), fields_of(node)) for node in told]
    lines += obsolete_of(image, size, order) if (numbers, since, until) == (None, None, None) else []
    counts = collections.Counter(word for _, word, _ in lines)
    total = "total " + " ".join(f"{word} {counts[word]}" for word in WORDS) + "\n"
    was = "".join(was_of(nodes, ino) for ino in sorted(numbers or ()))
    return "".join(f"{at:08x} {word} {fields}\n" for at, word, fields in sorted(lines)) + total + was
