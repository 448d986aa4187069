"""write_as_program.py IMAGE BLOCK BLOCKS LISTING FOLDER [FILE]..: writes what a listing makes, with the files that its lines
name. built.img and built.txt are what `jffs2_image build` and `cuts` make of no image, added.img and added.txt what `append`
and `cuts --on` make of the image."""

import sys

import jffs2


def bytes_of(name):
    with open(name, "rb") as file:
        return file.read()


def main(name, block, blocks, listing, folder, *files):
    data, lines = bytes_of(name), bytes_of(listing)
    contents = {it: bytes_of(it) for it in files}
    bases = {"built": (b"", "little"), "added": (data, jffs2.info(data).order or "little")}
    for about, (base, order) in bases.items():
        image = jffs2.Image(base, block, order)
        made, row = image.append(lines, blocks, files=contents)
        if row.stop:
            sys.exit(f"{about}: {row}")
        for kind, text in (("img", made), ("txt", image.cuts(lines, blocks, files=contents))):
            with open(f"{folder}/{about}.{kind}", "wb") as file:
                file.write(text)


main(sys.argv[1], int(sys.argv[2]), int(sys.argv[3]), *sys.argv[4:])
