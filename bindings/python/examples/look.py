"""look.py IMAGE BLOCK: what an image contains, its names, and the length and checksum of each file; then the same image
decompressed, compressed again, and cut in the middle, as a power failure would."""

import stat
import sys

import jffs2


def main(name: str, block: int) -> None:
    with open(name, "rb") as file:
        data = file.read()
    image = jffs2.Image(data, block, through=True)
    counts = image.check()
    print(f"blocks {counts.blocks} entries {counts.entries} inodes {counts.inodes} findings {counts.findings}")
    for entry in image.tree():
        print(entry.directory, entry.name.decode(errors="replace"), entry.number, end="")
        if entry.stat and stat.S_ISREG(entry.stat.mode):
            body = image.read_at(entry.number, 0, entry.stat.size)
            print(f" {entry.stat.mode:o} {len(body)} crc {jffs2.crc(body):08x}", end="")
        print()
    plain = image.decompress()
    small = jffs2.Image(plain, block).compress()
    print("decompressed", len(plain), "again", jffs2.Image(small, block).decompress() == plain)
    try:
        print("cut", len(jffs2.Image(data[: len(data) // 2], block, through=True).tree()))
    except jffs2.Error as error:
        print("cut", error.status)


main(sys.argv[1], int(sys.argv[2]))
