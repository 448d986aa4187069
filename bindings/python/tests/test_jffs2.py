"""Tests of the module: JFFS2_TEST_DATA names the folder of the images (tests/data of the repository).

Run as python3 -m unittest discover -s tests, with the module installed, or PYTHONPATH=. and JFFS2_LIB."""

import os
import threading
import unittest

import jffs2

DATA = os.environ.get("JFFS2_TEST_DATA") or os.path.join(os.path.dirname(__file__), "..", "..", "..", "tests", "data")


def bytes_of(name):
    with open(os.path.join(DATA, name), "rb") as file:
        return file.read()


class Calls(unittest.TestCase):
    def setUp(self):
        self.data = bytes_of("default.img")
        self.image = jffs2.Image(self.data, 8192, through=True)

    def refused(self, name, call, *words):
        with self.assertRaises(jffs2.Error) as met:
            call(*words)
        self.assertEqual(met.exception.name, name)
        return met.exception

    def test_crc(self):
        # CRC-32 without the two complements, of the usual nine digits
        self.assertEqual(jffs2.crc(b""), 0)
        self.assertEqual(jffs2.crc(b"123456789"), 0x2DFD2D88)

    def test_info(self):
        info = jffs2.info(self.data)
        self.assertEqual((info.bytes, info.order, info.least_block, info.greatest_block), (8292, "little", 8192, 8192))
        self.assertEqual((info.nodes, info.entries, info.inodes, info.markers), (31, 13, 16, 2))
        self.assertEqual((info.data["none"], info.data["rtime"], info.data["zlib"]), (9, 1, 6))
        self.assertIsNone(jffs2.info(b"").order)

    def test_read(self):
        self.assertEqual(self.image.read("/etc/passwd"), b"root:x:0:0:root:/root:/bin/sh\n")
        number = self.image.stat("/etc/passwd").number
        self.assertEqual(self.image.read_at(number, 5, 4), b"x:0:")
        self.assertEqual(self.image.read_at(number, 1000, 4), b"")
        self.assertEqual(self.image.read_at(999, 0, 4), b"")

    def test_mount(self):
        plain = jffs2.Image(self.image.decompress(), 8192)
        with plain.mount() as mount:
            number = mount.find("/etc/passwd")
            self.assertEqual(mount.object(number), plain.stat("/etc/passwd"))
            self.assertEqual(mount.read_at(number, 5, 4), b"x:0:")
            self.refused("NotFound", mount.find, "/nothing")
            self.refused("NotFound", mount.object, 999)
            met = []
            thread = threading.Thread(target=lambda: met.append(self.assertRaises(RuntimeError, mount.find, "/")))
            thread.start()
            thread.join()
            self.assertEqual(met, [None])
        self.refused("Closed", mount.find, "/")
        self.refused("Closed", mount.read_at, number, 0, 1)
        mount.close()
        self.refused("Compressed", self.image.mount)

    def test_read_many(self):
        wanted = [(entry.number, 1, 5000) for entry in self.image.tree()]
        found = self.image.read_many(wanted)
        self.assertEqual(found, [self.image.read_at(*it) for it in wanted])
        self.assertTrue(any(found))
        number = self.image.stat("/etc/passwd").number
        few = [(999, 0, 9), (number, 26, 99), (number, 0, 4)]
        self.assertEqual(self.image.read_many(few), [b"", b"/sh\n", b"root"])
        self.assertEqual(self.image.read_many([]), [])
        self.assertEqual(len(self.image.read_many([(number, 0, 2**64 - 1)] * 3)), 3)
        self.refused("Compressed", jffs2.Image(self.data, 8192).read_many, few)

    def test_rows(self):
        found = self.image.findings()
        self.assertEqual(len(found), self.image.check().findings)
        self.assertEqual({jffs2.FINDINGS[it.kind] for it in found}, {"compressed"})
        nodes = self.image.nodes()
        self.assertEqual(len(nodes), jffs2.info(self.data).nodes)
        names = [self.data[it.address + 40 :][: it.stored] for it in nodes if jffs2.KINDS[it.kind] == "entry"]
        self.assertEqual(len(names), 13)
        self.assertIn(b"passwd", names)
        self.refused("BlockSize", jffs2.Image(self.data, 8193).findings)
        self.refused("BlockSize", jffs2.Image(self.data, 8193).nodes)
        self.assertEqual(jffs2.Image(b"").nodes(), [])

    def test_tree(self):
        tree = self.image.tree()
        self.assertEqual(len(tree), 13)
        root = [entry.name for entry in tree if entry.directory == 1]
        self.assertEqual(root, sorted(root))
        self.assertIn(b"etc", root)
        for entry in tree:
            self.assertEqual(entry.stat.number, entry.number)

    def test_texts(self):
        it = self.image.stat("/etc/passwd")
        words = f"- {it.mode & 0o7777:04o} {it.uid} {it.gid} {it.size} {it.mtime} {it.number} /etc/passwd\n"
        self.assertEqual(self.image.tree_text("/etc/passwd"), words.encode())
        self.assertIn(words.encode(), self.image.tree_text())
        self.assertEqual(self.image.tree_text().count(b"\n"), 14)
        self.refused("NotFound", self.image.tree_text, "/nothing")
        self.refused("Compressed", jffs2.Image(self.data, 8192).tree_text)
        nothing = b"total blocks 0 entries 0 inodes 0 findings 0\nmount ok\n"
        self.assertEqual(jffs2.Image(b"").check_text(), nothing)
        self.assertEqual(jffs2.Image(b"").check_text(shape=True), nothing + b"shape ok\n")
        self.refused("BlockSize", jffs2.Image(self.data, 8193).check_text)

    def test_refusals(self):
        self.assertEqual(self.refused("Compressed", jffs2.Image(self.data, 8192).stat, "/etc").status, 4)
        self.refused("NotFound", self.image.stat, "/nothing")
        self.refused("BadPath", self.image.stat, "etc")
        self.refused("NotDirectory", self.image.stat, "/etc/passwd/x")
        self.refused("BlockSize", jffs2.Image(self.data, 8193).check)
        self.refused("BlockSize", jffs2.Image(self.data, 0).tree)
        self.refused("Geometry", jffs2.Image(b"", 4096).compress)

    def test_round_trip(self):
        plain = self.image.decompress()
        image = jffs2.Image(plain, 8192)
        self.assertEqual(image.read("/etc/passwd"), self.image.read("/etc/passwd"))
        small = image.compress()
        self.assertLess(len(small), len(plain))
        self.assertEqual(jffs2.Image(small, 8192).decompress(), plain)

    def test_append(self):
        listing, files = "time 7\nmkdir 0755 /d\nfile 0644 /d/f text\n", {"text": b"hello", "none": bytearray()}
        made, row = jffs2.Image(b"", 8192).append(listing, 4, files=files)
        self.assertEqual((row.bytes, row.accepted, row.stop), (len(made), 2, 0))
        image = jffs2.Image(made, 8192)
        self.assertEqual(image.read("/d/f"), b"hello")
        # the last line of `cuts` tells of the same nodes
        told = jffs2.Image(b"", 8192).cuts(listing, 4, files=files).decode().splitlines()
        self.assertEqual(told[-1].split()[:5], ["total", "operations", "2", "steps", str(row.nodes)])
        self.assertEqual(len(told), row.nodes + 1)
        more = "time 8\nremove /d/f\nremove /e\n"
        less, row = image.append(more, 4)
        self.assertEqual(less[: len(made)], made)
        self.assertEqual((row.accepted, row.stop, row.line, row.detail), (1, 31, 3, 3))
        self.refused("NotFound", jffs2.Image(less, 8192).stat, "/d/f")
        found = self.refused("Refused", image.cuts, more, 4)
        self.assertEqual((found.address, found.detail), (3, 3))

    def test_append_refused(self):
        none = jffs2.Image(b"", 8192)
        for call in (none.append, none.cuts):
            self.assertEqual(self.refused("NoFile", call, "time 1\nfile 0644 /f x", 4).address, 2)
            found = self.refused("Listing", call, "time 1\n\nmkdir  0755 /d", 4)
            self.assertEqual((found.address, jffs2.RULES[found.detail]), (3, "two-spaces"))
            self.refused("Page", call, "", 4, 512)
            self.refused("Geometry", call, "", 4, 8192)
            self.refused("Compressed", jffs2.Image(self.data, 8192).append, "", 4)
        large = ("time 1\nfile 0644 /f x", 1, 4096, {"x": b"x" * 9000})
        self.assertEqual(none.append(*large)[1].stop, 24)
        self.assertEqual(self.refused("Full", none.cuts, *large).address, 2)

    def test_update(self):
        lines, files = "time 8\nmkdir 0755 /new\nfile 0644 /new/f text\nremove /new/e\n", {"text": b"x" * 3000}
        for pack in (False, True):
            made, row = self.image.update(lines, 4, files=files, pack=pack)
            self.assertEqual((row.bytes, row.accepted, row.stop, row.line, row.detail), (len(made), 2, 31, 4, 3))
            image = jffs2.Image(made, 8192, through=True)
            self.assertEqual(image.read("/new/f"), files["text"])
            self.assertEqual(image.read("/etc/passwd"), self.image.read("/etc/passwd"))
            self.assertEqual(jffs2.info(made).data["zlib"] - jffs2.info(self.data).data["zlib"], int(pack))
        self.refused("Page", self.image.update, lines, 4, 512)

    def test_compact(self):
        made = self.image.compact(2)
        self.assertEqual(jffs2.Image(made, 8192, through=True).tree_text(), self.image.tree_text())
        self.refused("Geometry", self.image.compact, 0)

    def test_no_image(self):
        self.assertEqual(jffs2.Image(b"").tree(), [])
        self.assertEqual(jffs2.Image(b"").stat("/").number, 1)
        self.assertEqual(jffs2.Image(b"").decompress(), b"")

    def test_bytes_like(self):
        for data in (bytearray(self.data), memoryview(self.data), memoryview(bytearray(self.data))):
            self.assertEqual(jffs2.Image(data, 8192).check(), self.image.check())


if __name__ == "__main__":
    unittest.main()
