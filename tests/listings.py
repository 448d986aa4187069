#!/usr/bin/env python3
"""Worked listings onto an empty flash, in both orders: what is told, where the nodes go, and new objects byte for byte.

Usage: tests/listings.py [PROGRAM]. The places are by docs/FORMAT.md: a marker at each block's start, nodes behind it in their
order, in the next block where one would pass a block's end. The last line is 'N passed, M failed'.
"""
import subprocess
import sys

from groups import PROGRAM, ROOT, Done, run_all, verdict, write
from sentences import lines_of

# What is made first, and where its nodes go.
MADE = ((0x0C, "inode", 68), (0x50, "entry", 44))
CREATE = "create 0644 /a"

# The size and the number of blocks, and of a page; a listing; what is told; where the nodes go.
ACCEPTED = (
    (8192, 1, 4096, (CREATE, "write /a 0 ffffff"), "2 nodes 3 bytes 196", (*MADE, (0x7C, "inode", 72))),
    (8192, 1, 4096, (CREATE, "part /a 0 page", "truncate /a 5"), "3 nodes 4 bytes 4356", (*MADE, (0x7C, "inode", 4164), (0x10C0, "inode", 68))),
    (8192, 2, 4096, (CREATE, "part /a 0 two"), "2 nodes 4 bytes 12368", (*MADE, (0x7C, "inode", 4164), (0x200C, "inode", 4164))),
    (8192, 1, 4096, ("mkdir 0755 /d", "rename /d /e"), "2 nodes 4 bytes 212", (*MADE, (0x7C, "entry", 44), (0xA8, "entry", 44))),
    (
        *(8192, 1, 4096, (CREATE, "create 0644 /b", "replace /b /a", "replace /a /a"), "4 nodes 6 bytes 324"),
        (*MADE, (0x7C, "inode", 68), (0xC0, "entry", 44), (0xEC, "entry", 44), (0x118, "entry", 44)),
    ),
    (8192, 1, 4096, (CREATE, "write /a 100 -", "truncate /a 0"), "3 nodes 2 bytes 124", MADE),
    *(
        (
            *(65536, 1, page, (CREATE, "device c 0600 4 1 /c", "device b 0640 259 65537 /b"), "3 nodes 6 bytes 356"),
            (*MADE, (0x7C, "inode", 72), (0xC4, "entry", 44), (0xF0, "inode", 72), (0x138, "entry", 44)),
        )
        for page in (4096, 8192, 16384)
    ),
    (65536, 1, 16384, (CREATE, "part /a 0 16384"), "2 nodes 3 bytes 16576", (*MADE, (0x7C, "inode", 16452))),
    (65536, 1, 8192, (CREATE, "part /a 0 6464"), "2 nodes 3 bytes 6656", (*MADE, (0x7C, "inode", 6532))),
    # A node whose length would spell the magic is two.
    (65536, 1, 8192, (CREATE, "part /a 0 6465"), "2 nodes 4 bytes 6728", (*MADE, (0x7C, "inode", 4164), (0x10C0, "inode", 2440))),
    (65536, 1, 8192, (CREATE, "part /a 0 6466"), "2 nodes 3 bytes 6660", (*MADE, (0x7C, "inode", 6536))),
    (65536, 1, 8192, (CREATE, "part /a 0 9000"), "2 nodes 4 bytes 9260", (*MADE, (0x7C, "inode", 8260), (0x20C0, "inode", 876))),
)
FITS = "\njffs2_image: note: the operation fits into a flash of"
# What does not fit, or is refused: what was accepted before stands.
REFUSED = (
    (1, (CREATE, "part /a 0 page", "part /a 4096 page"), f"S2 Full needed 4164 free 3904 line 3{FITS} 2 blocks", 4288),
    (2, (CREATE, "part /a 0 three"), f"S2 Full needed 12492 free 16248 line 2{FITS} 3 blocks", 124),
    (2, (CREATE, "part /a 0 four"), f"S2 Full needed 16656 free 16248 line 2{FITS} 4 blocks", 124),
    (1, ("mkdir 0755 /d", "mkdir 0755 /d", "mkdir 0755 /e"), "S1 Refused O5 Exists line 2", 124),
    (1, ("mkdir 0755 /d", "rename /d /d/e"), "S1 Refused O8 IntoItself line 2", 124),
    (1, ("mkdir 0755 /d", "write /d 0 00"), "S1 Refused O6 WrongKind line 2", 124),
    (1, ("remove /",), "S1 Refused O1 BadPath line 1", 0),
    (1, ("create 10000 /x",), "S1 Refused O10 BadMode line 1", 0),
    (1, ("device c 0600 1 3 /",), "S1 Refused O1 BadPath line 1", 0),
    (1, (f"device c 0600 1 3 /{'x' * 255}",), "S1 Refused O2 NameTooLong line 1", 0),
    (1, ("device b 0600 8 0 /none/x",), "S1 Refused O3 NotFound line 1", 0),
    (1, (CREATE, "device c 0600 1 3 /a/x"), "S1 Refused O4 NotDirectory line 2", 124),
    (1, (CREATE, "device b 0600 8 0 /a"), "S1 Refused O5 Exists line 2", 124),
    (1, ("device c 20600 1 3 /x",), "S1 Refused O10 BadMode line 1", 0),
)
NEW = {
    "fifo": "fifo 0622 /p",
    "socket": "socket 0755 /s",
    "character": "device c 0620 4 1 /c",
    "block": "device b 0640 259 65537 /b",
}
FILES = {"page": 4096, "two": 8192, "three": 12288, "four": 16384, **{str(size): size for size in (16384, 6464, 6465, 6466, 9000)}}
ORDERS = ("little", "big")


def run(*words):
    done = subprocess.run([PROGRAM, *words], stdin=subprocess.DEVNULL, capture_output=True, check=False)
    return Done(done.returncode, done.stdout, done.stderr)


def read(name):
    with open(name, "rb") as file:
        return file.read()


def build(flash, blocks, lines):
    """Builds the listing of these lines into `built`."""
    write("listing", "".join(f"{line}\n" for line in lines))
    write("built", b"")
    return run("build", *flash, "--blocks", str(blocks), "listing", "built")


def nodes_in(report):
    """Where the entries and the inode nodes of a report lie."""
    rows = [line.split()[:3] for line in report.decode().split("\n")]
    return tuple((int(row[0], 16), row[1], int(row[2])) for row in rows if len(row) == 3 and row[1] in ("entry", "inode"))


def accepted():
    """Listings that are accepted: the line that tells of them, the places of the nodes, and the bytes between them."""
    for name, size in FILES.items():
        write(name, b"0123456789\n" * (size // 11) + b"0123456789\n"[: size % 11])
    for block, blocks, page, lines, told, places in ACCEPTED:
        for order in ORDERS:
            flash = ("--block", str(block), "--endian", order)
            done = build((*flash, "--page", str(page)), blocks, lines)
            verdict(f"{lines}, {order}", done == Done(0, f"accepted {told}\n".encode(), b""), done)
            done = run("check", *flash, "built")
            is_right = nodes_in(done.out) == places and done.out.endswith(b" findings 0\nmount ok\n") and b" dirt " not in done.out
            verdict(f"places of {lines}, {order}", done.status == 0 and is_right, done)
            if lines[1].startswith("part /a 0 "):
                done, whole = run("cat", *flash, "built", "/a"), read(lines[1].split()[3])
                verdict(f"bytes of {lines}, {order}", done == Done(0, whole[:5] if lines[-1] == "truncate /a 5" else whole, b""), done)


def refused():
    """Listings that are refused: why, and how many bytes went out before."""
    for blocks, lines, told, length in REFUSED:
        for order in ORDERS:
            done = build(("--block", "8192", "--endian", order), blocks, lines)
            verdict(f"{lines}, {order}", done == Done(1, b"", lines_of(told).encode()), done)
            verdict(f"{length} bytes of {lines}, {order}", len(read("built")) == length)


def new_objects():
    """FIFOs, sockets and devices, byte for byte, as tests/new_nodes.py makes them."""
    for kind, line in NEW.items():
        for order in ORDERS:
            done = build(("--block", "8192", "--endian", order), 1, ("time 7", "owner 5 6", line))
            words = [sys.executable, f"{ROOT}/tests/new_nodes.py", kind, order]
            wanted = subprocess.run(words, stdout=subprocess.PIPE, check=True).stdout
            verdict(f"{line}, {order}", done.status == 0 and read("built") == wanted, done)


if __name__ == "__main__":
    sys.exit(run_all((accepted, refused, new_objects)))
