#!/usr/bin/env python3
"""Shows pictures of `map --svg` in a browser: tests/peers/picture.py [PROGRAM [BROWSER]]

A browser without a screen (Debian's chromium) draws the pictures of the guide and those of images of
the repository. In each screenshot the middle of every rectangle that is wide enough to be seen has the
colour of its kind in the picture's own style. So the picture is well-formed, nothing lies over
anything else, and blocks stand below one another. The last line is 'N passed, M failed'; status 77 if
there is no browser. It is no part of tests/all.sh, because it needs that package.
"""
import os
import re
import shutil
import struct
import subprocess
import sys
import tempfile
import xml.etree.ElementTree as xml
import zlib

ROOT = os.path.dirname(os.path.dirname(os.path.dirname(os.path.abspath(__file__))))
PROGRAM = os.path.realpath(sys.argv[1] if len(sys.argv) > 1 else f"{ROOT}/crates/jffs2_image/out/jffs2_image")
BROWSER = sys.argv[2] if len(sys.argv) > 2 else shutil.which("chromium")
SVG = "{http://www.w3.org/2000/svg}"
IMAGES = {"tests/data/default.img": 8192, "crates/jffs2_image/data/tree.img": 8192}
# A rectangle is looked at if it has so many pixels, since the edges of narrower ones are mixed.
WIDE = 4


def rectangles(root):
    """Each rectangle of a kind: the kind, the middle, and the width, in pixels of the screen."""
    for part in root:
        if part.tag == f"{SVG}rect" and "class" in part.attrib:
            x, y, width, height = (float(part.get(name)) for name in ("x", "y", "width", "height"))
            yield part.get("class"), x + width / 2, y + height / 2, width
        elif part.tag == f"{SVG}svg":
            scale = float(part.get("width")) / float(part.get("viewBox").split()[2])
            left, middle = float(part.get("x")), float(part.get("y")) + float(part.get("height")) / 2
            for node in part:
                x, width = float(node.get("x")), float(node.get("width"))
                yield node.get("class"), left + (x + width / 2) * scale, middle, width * scale


def unfiltered(row, before, kind, size):
    """A row of a PNG image without its filter (PNG specification, section 9)."""
    for k in range(len(row)):
        left = row[k - size] if k >= size else 0
        above, corner = before[k], before[k - size] if k >= size else 0
        near = left + above - corner
        paeth = min((abs(near - it), rank, it) for rank, it in enumerate((left, above, corner)))[2]
        row[k] = (row[k] + (0, left, above, (left + above) // 2, paeth)[kind]) % 256
    return row


def pixels(file):
    """The rows of a PNG image of 8 bits a channel without interlacing, and the bytes of a pixel."""
    with open(file, "rb") as it:
        data = it.read()
    at, packed, size, width = 8, b"", 0, 0
    while at < len(data):
        length, name = struct.unpack(">I4s", data[at : at + 8])
        body = data[at + 8 : at + 8 + length]
        if name == b"IHDR":
            width, _, depth, colour, _, _, interlaced = struct.unpack(">IIBBBBB", body)
            assert (depth, interlaced) == (8, 0) and colour in (2, 6), "another form of PNG"
            size = 3 if colour == 2 else 4
        elif name == b"IDAT":
            packed += body
        at += length + 12
    raw, rows, before = zlib.decompress(packed), [], bytes(width * size)
    for at in range(0, len(raw), width * size + 1):
        before = unfiltered(bytearray(raw[at + 1 : at + 1 + width * size]), before, raw[at], size)
        rows.append(before)
    return rows, size


def shown(picture, folder):
    """How many rectangles of a picture are looked at, and those that have another colour than theirs."""
    with open(f"{folder}/picture.svg", "w", encoding="utf-8") as it:
        it.write(picture)
    root = xml.fromstring(picture)
    window = f"--window-size={root.get('width')},{root.get('height')}"
    words = [BROWSER, "--headless", "--no-sandbox", "--disable-gpu", "--hide-scrollbars", "--force-device-scale-factor=1"]
    words += [window, f"--screenshot={folder}/shot.png", f"file://{folder}/picture.svg"]
    subprocess.run(words, check=True, capture_output=True, timeout=120)
    rows, size = pixels(f"{folder}/shot.png")
    colours = dict(re.findall(r"\.([a-z]+)\{fill:#([0-9a-f]{6})\}", root.find(f"{SVG}style").text))
    seen = [it for it in rectangles(root) if it[3] >= WIDE]
    wrong = [it for it in seen if rows[int(it[2])][int(it[1]) * size :][:3].hex() != colours[it[0]]]
    return len(seen), wrong


def main():
    if not BROWSER or not shutil.which(BROWSER):
        print("a browser is missing: apt-get install chromium")
        return 77
    pictures = {}
    for name in ("docs/map-used.svg", "docs/map-new.svg"):
        with open(f"{ROOT}/{name}", encoding="utf-8") as it:
            pictures[name] = it.read()
    for name, block in IMAGES.items():
        words = [PROGRAM, "map", "--svg", "--block", str(block), f"{ROOT}/{name}"]
        pictures[name] = subprocess.run(words, check=True, capture_output=True, text=True).stdout
    passed = failed = 0
    with tempfile.TemporaryDirectory(prefix="picture-") as folder:
        for name, picture in pictures.items():
            count, wrong = shown(picture, folder)
            passed, failed = passed + count - len(wrong), failed + len(wrong)
            print(f"{name}: {count} rectangles, {len(wrong)} of another colour {wrong[:3]}")
    print(f"{passed} passed, {failed} failed")
    return 1 if failed or not passed else 0


if __name__ == "__main__":
    sys.exit(main())
