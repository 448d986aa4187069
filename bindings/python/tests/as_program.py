"""as_program.py IMAGE BLOCK FOLDER: prints the tree as `jffs2_image ls` does, for names without escapes. It writes plain.img
and small.img, the image decompressed and compressed again, and tree.txt and check.txt, the texts of `ls` and of `check`."""

import sys

import jffs2

KINDS = {1: "p", 2: "c", 4: "d", 6: "b", 8: "-", 10: "l", 12: "s"}
ROOT = 1


def line(stat, path, target):
    kind = KINDS.get(stat.mode >> 12, "?")
    numbers = f"{stat.mode & 0o7777:04o} {stat.uid} {stat.gid} {stat.size} {stat.mtime} {stat.number}"
    return f"{kind} {numbers} {path}" + (f" -> {target}" if target is not None else "")


def walk(image, entries, number, path):
    for entry in entries.get(number, []):
        here = f"{path}/{entry.name.decode()}"
        is_link = entry.stat.mode >> 12 == 10
        target = image.read_at(entry.number, 0, entry.stat.size).decode().replace("/", "\\x2f") if is_link else None
        print(line(entry.stat, here, target))
        if entry.stat.mode >> 12 == 4:
            walk(image, entries, entry.number, here)


def main(name, block, folder):
    with open(name, "rb") as file:
        data = file.read()
    order = jffs2.info(data).order or "little"
    image = jffs2.Image(data, block, order, through=True)
    entries = {}
    for entry in image.tree():
        entries.setdefault(entry.directory, []).append(entry)
    print(line(image.stat("/"), "/", None))
    walk(image, entries, ROOT, "")
    plain = image.decompress()
    made_of = {
        "plain.img": plain,
        "small.img": jffs2.Image(plain, block, order).compress(),
        "tree.txt": image.tree_text(),
        "check.txt": image.check_text(shape=True),
    }
    for file_name, made in made_of.items():
        with open(f"{folder}/{file_name}", "wb") as file:
            file.write(made)


main(sys.argv[1], int(sys.argv[2]), sys.argv[3])
