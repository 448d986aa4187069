#!/usr/bin/env python3
"""Cuts images where `cuts` says that a node stands, and one byte before, and looks at what is left.

Usage: tests/cuts.py [PROGRAM]. For each of ten listings `cuts` prints its lines, and `build` or `append` makes the image. Cut at
a line's B it must show the file system after the steps up to that line, and one byte earlier that after the steps before it, by
the plain model below, which shares no code with the program. The last line is 'N passed, M failed'.
"""
import os
import subprocess
import sys
import tempfile

TOP = os.path.dirname(os.path.dirname(os.path.abspath(__file__)))
PIECE_THAT_SPELLS = 0x1985 - 68
KINDS = {0o04: "d", 0o10: "-", 0o12: "l", 0o01: "p", 0o02: "c", 0o06: "b", 0o14: "s"}


class Tree:
    """A file system: objects by their numbers, and names by their directory's number."""

    def __init__(self):
        self.objects = {1: [0o040755, 0, 0, 0, b""]}
        self.names = {}
        self.next = 2

    def number(self, path):
        at = 1
        for name in path.split("/")[1:]:
            at = self.names[at, name] if name else at
        return at

    def place(self, path):
        above, name = path.rsplit("/", 1)
        return self.number(above or "/"), name

    def make(self, time, mode, owner, body=b""):
        self.objects[self.next] = [mode, *owner, time, body]
        self.next += 1

    def put(self, time, number, offset, data):
        body = self.objects[number][4].ljust(offset, b"\0")
        self.objects[number][3:] = [time, body[:offset] + data + body[offset + len(data) :]]

    def cut(self, time, number, size):
        self.objects[number][3:] = [time, self.objects[number][4][:size]]

    def attributes(self, number, mode, uid, gid, mtime):
        self.objects[number][:4] = [self.objects[number][0] & ~0o7777 | mode, uid, gid, mtime]

    def lines(self, number=1, path="", met=None):
        """What `ls` prints, and the paths of the regular files."""
        met = set() if met is None else met
        mode, uid, gid, mtime, body = self.objects[number]
        kind = KINDS[mode >> 12]
        line = f"{kind} {mode & 0o7777:04o} {uid} {gid} {len(body)} {mtime} {number} {path or '/'}"
        line += " -> " + body.decode().replace("/", "\\x2f") if kind == "l" else ""
        again = kind == "d" and number in met
        yield line + (" (again)" if again else ""), (path, body) if kind == "-" else None
        if kind == "d" and not again:
            met.add(number)
            for (above, name), other in sorted(self.names.items()):
                if above == number:
                    yield from self.lines(other, f"{path}/{name}", met)


def pieces(page, offset, data):
    """The pieces of a write, each in one page; two for the length that a header's magic spells."""
    while data:
        piece = data[: page - offset % page]
        for part in (piece[:4096], piece[4096:]) if len(piece) == PIECE_THAT_SPELLS else (piece,):
            yield offset, part
            offset += len(part)
        data = data[len(piece) :]


def change(tree, line, page, state):
    """The steps of a line of a listing, each a call; `state` has the time and the owner."""
    verb, *words = line.split(" ")
    time, owner = state["time"], state["owner"]
    kinds = {"mkdir": 0o040000, "create": 0o100000, "fifo": 0o010000, "socket": 0o140000}
    name = lambda path, number: tree.names.__setitem__(tree.place(path), number)
    if verb == "time":
        state["time"] = int(words[0])
    elif verb == "owner":
        state["owner"] = (int(words[0]), int(words[1]))
    elif verb == "device":
        mode, path, number = int(words[1], 8) | {"c": 0o020000, "b": 0o060000}[words[0]], words[4], tree.next
        yield lambda: tree.make(time, mode, owner, b"")
        yield lambda: name(path, number)
    elif verb in kinds or verb == "symlink":
        mode, path = (int(words[0], 8) | kinds[verb], words[1]) if verb in kinds else (0o120777, words[0])
        body = words[1].encode() if verb == "symlink" else b""
        number = tree.next
        yield lambda: tree.make(time, mode, owner, body)
        yield lambda: name(path, number)
    elif verb in ("write", "truncate"):
        number = tree.number(words[0])
        size, at = len(tree.objects[number][4]), int(words[1])
        data = bytes.fromhex(words[2]) if verb == "write" else b""
        if size < at and (data or verb == "truncate"):
            yield lambda: tree.put(time, number, at, b"")
        elif at < size and verb == "truncate":
            yield lambda: tree.cut(time, number, at)
        for offset, piece in pieces(page, at, data):
            yield lambda offset=offset, piece=piece: tree.put(time, number, offset, piece)
    elif verb == "link":
        yield lambda: name(words[1], tree.number(words[0]))
    elif verb == "remove":
        yield lambda: tree.names.pop(tree.place(words[0]))
    elif verb in ("rename", "replace"):
        number, place = tree.number(words[0]), tree.place(words[0])
        yield lambda: name(words[1], number)
        yield lambda: tree.names.pop(place)
    else:
        mode, uid, gid, _, mtime = words[:5]
        yield lambda: tree.attributes(tree.number(words[5]), int(mode, 8), int(uid), int(gid), int(mtime))


def hexed(seed, length):
    return bytes((seed * 7 + i * i) % 251 for i in range(length)).hex()


MADE = ["time 5", "owner 3 4", "mkdir 0755 /d", "create 0640 /d/a", "write /d/a 0 " + hexed(1, 300), "symlink /s d/a"]
TREE = MADE[:4] + [
    "write /d/a 0 " + hexed(1, 5000),
    "create 0600 /t",
    "write /t 0 " + (b"one line of text, and again one line of text.\n" * 100).hex(),
]

# Options that readers have too, the page, and the lines of a base and of the listing on it
ROWS = [
    ([], 4096, None, ["create 0644 /a", "write /a 0 ffffff"]),
    ([], 4096, None, MADE + ["write /d/a 100 " + hexed(2, 9000), "truncate /d/a 4200", "truncate /d/a 9000"]),
    ([], 8192, None, MADE + ["write /d/a 3 " + hexed(3, 20000), "create 0600 /b", "write /b 0 " + hexed(4, PIECE_THAT_SPELLS)]),
    (["--endian", "big"], 16384, None, MADE + ["write /d/a 0 " + hexed(5, 40000)]),
    (["--endian", "big"], 4096, None, MADE + ["attr 0711 9 8 7 6 /d/a", "attr 0700 1 2 3 4 /", "attr 0500 1 2 3 4 /d", "time 8", "write /d/a 0 ff"]),
    ([], 4096, None, MADE + ["mkdir 0700 /e", "rename /d/a /e/b", "rename /e /d/e", "link /d/e/b /c", "remove /d/e/b", "remove /s"]),
    (["--endian", "big"], 4096, None, MADE + ["create 0600 /n", "write /n 0 " + hexed(6, 70), "replace /n /d/a", "replace /d/a /o", "fifo 0600 /f", "socket 0600 /g", "device c 0600 4 1 /c", "device b 0640 259 65537 /d/b"]),
    ([], 4096, MADE, ["# on a base", "write /d/a 300 " + hexed(7, 5000), "", "rename /d /e", "create 0644 /e/z", "truncate /e/z 10"]),
    (["--endian", "big"], 8192, MADE, ["replace /d/a /b", "write /b 9000 " + hexed(8, 8000) + "ffffff", "attr 0604 0 0 1 2 /b"]),
    ([], 4096, MADE, ["mkdir 0700 /d/" + "n" * 200] + [f"create 0600 /d/{'m' * 180}{i:02}" for i in range(60)]),
]


class Runs:
    def __init__(self, program):
        self.program, self.passed, self.failed = program, 0, 0

    def run(self, *words):
        done = subprocess.run([self.program, *words], capture_output=True, stdin=subprocess.DEVNULL, check=False)
        return done.returncode, done.stdout, done.stderr.decode()

    def same(self, about, found, wanted):
        self.passed, self.failed = (self.passed + 1, self.failed) if found == wanted else (self.passed, self.failed + 1)
        if found != wanted:
            print(f"FAILED: {about}\n  found:  {str(found)[:300]}\n  wanted: {str(wanted)[:300]}")

    def shows(self, about, image, options, tree):
        """Whether an image shows this file system, with the bytes of its files."""
        told = list(tree.lines())
        _, out, _ = self.run("ls", *options, image)
        self.same(about, out.decode().splitlines(), [line for line, _ in told])
        for path, body in filter(None, (file for _, file in told)):
            self.same(f"{about}: {path}", self.run("cat", *options, image, path)[1], body)


def write(name, data):
    with open(name, "wb") as file:
        file.write(data)


def read(name):
    with open(name, "rb") as file:
        return file.read()


def laid(tree, lines, page, state):
    """The steps of a listing: the number of each one's line, its own number and how many its line has, and what it does."""
    for number, line in enumerate(lines, 1):
        if line and not line.startswith("#"):
            planned = list(change(tree, line, page, state))
            for i, step in enumerate(planned, 1):
                yield number, i, len(planned), step


def try_row(runs, about, options, page, base, lines):
    options = ["--block", "8192" if page == 4096 else "32768", *options]
    flash = ["--blocks", "16", "--page", str(page), *options]
    tree, state = Tree(), {"time": 0, "owner": (0, 0)}
    words = ["cuts", *flash, "listing"]
    if base is not None:
        write("base.txt", "".join(line + "\n" for line in base).encode())
        runs.same(about + ": its base", runs.run("build", *flash, "base.txt", "base")[0], 0)
        for _, _, _, step in laid(tree, base, page, {"time": 0, "owner": (0, 0)}):
            step()
        words[1:1] = ["--on", "base"]
    write("listing", "".join(line + "\n" for line in lines).encode())
    status, out, errors = runs.run(*words)
    told = [line.split(" ") for line in out.decode().splitlines()]
    runs.same(about + ": cuts", (status, errors, told[-1][0]), (0, "", "total"))
    runs.same(about + ": made", runs.run(*(["build", *flash] if base is None else ["append", *flash, "base"]), "listing", "image")[0], 0)
    image = read("image")
    runs.same(about + ": the end", told[-1][-4:], ["to", f"{len(image):08x}", "weak", "0"])
    count = 0
    for line, step, steps, act in laid(tree, lines, page, state):
        node = told[count]
        count += 1
        at = f"{about}: line {line} step {step}"
        runs.same(at, node[2:10], ["line", str(line), "step", str(step), "of", str(steps), "stands", "from"])
        stands = int(node[10], 16)
        write("before", image[: stands - 1])
        write("after", image[:stands])
        runs.shows(at + ", a byte before", "before", options, tree)
        act()
        runs.shows(at, "after", options, tree)
    runs.same(about + ": the number of lines", len(told) - 1, count)
    runs.same(about + ": the number of steps", told[-1][4], str(count))


def main():
    program = os.path.abspath(sys.argv[1] if len(sys.argv) > 1 else os.path.join(TOP, "crates/jffs2_image/out/jffs2_image"))
    runs = Runs(program)
    with tempfile.TemporaryDirectory() as folder:
        os.chdir(folder)
        for number, row in enumerate(ROWS, 1):
            try_row(runs, f"listing {number}", *row)
        os.chdir("/")
    print(f"{runs.passed} passed, {runs.failed} failed")
    return 1 if runs.failed else 0


if __name__ == "__main__":
    sys.exit(main())
