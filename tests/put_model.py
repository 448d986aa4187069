"""The steps of lines that give a file whole or take a name away where it is: `file`, `put` and `remove-if`. The steps of all other
lines, and the file system, are those of cuts.py.

By docs/FORMAT.md: `file` and `put` make the object with its first piece, put the other pieces, and then give it its name, in the
place of whatever had it; `remove-if` takes a name away, and has no step where it is not there.
"""
import cuts


def read(name):
    with open(name, "rb") as file:
        return file.read()


def file_steps(tree, words, page, state):
    """The steps that give a file whole: each node of its pieces, and then its name."""
    mode, path, data = int(words[0], 8) | 0o100000, words[1], read(words[2])
    time, owner, number = state["time"], state["owner"], tree.next
    (_, first), *more = list(cuts.pieces(page, 0, data)) or [(0, b"")]
    yield lambda: tree.make(time, mode, owner, first)
    for offset, piece in more:
        yield lambda offset=offset, piece=piece: tree.put(time, number, offset, piece)
    yield lambda: tree.names.__setitem__(tree.place(path), number)


def change(tree, line, page, state):
    """The steps of a line, each a call."""
    verb, *words = line.split(" ")
    if verb in ("file", "put"):
        yield from file_steps(tree, words, page, state)
    elif verb == "remove-if":
        if tree.place(words[0]) in tree.names:
            yield lambda: tree.names.pop(tree.place(words[0]))
    else:
        yield from cuts.change(tree, line, page, state)


def steps_of(tree, lines, page=4096):
    """The steps of a listing, each to be called before the next one is made."""
    state = {"time": 0, "owner": (0, 0)}
    for line in lines:
        yield from list(change(tree, line, page, state))


def files_of(tree, number=1, path=""):
    """What the file system shows, of each path: kind, mode, owner, time, bytes and the number of the object."""
    mode, uid, gid, mtime, body = tree.objects[number]
    kind = cuts.KINDS[mode >> 12]
    yield path or "/", (kind, mode & 0o7777, uid, gid, mtime, body, number)
    for (above, name), other in sorted(tree.names.items()):
        if kind == "d" and above == number:
            yield from files_of(tree, other, f"{path}/{name}")
