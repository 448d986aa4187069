#!/usr/bin/env python3
"""Runs `listing`, `pack` and `extract` of the finished program on folders of this host and on images that are made to do harm.

Usage: tests/folders.py [PROGRAM]. A folder comes back whole by listing, build and extract; what a listing or this host can't
hold is told, a line each; and nothing is made outside the new folder. The last line is 'N passed, M failed'.
"""
import os
import pty
import random
import resource
import shutil
import signal
import socket
import stat
import subprocess
import sys
import time

import hostile_images as images
from groups import PROGRAM, Done, run_all, verdict, write
from hostile_images import DIRECTORY, entry, inode, laid
from sentences import lines_of

SYMLINK = 0o120777
TIME = 1000000000
IS_ROOT = os.geteuid() == 0
CLASH_NOTE = (
    "jffs2_image: note: the nodes at 00000000 and 00000048 differ; "
    "decompress --clashes higher keeps that of the highest address\n"
)


def run(*words, **streams):
    done = subprocess.run([PROGRAM, *words], stdin=subprocess.DEVNULL, capture_output=not streams, check=False, **streams)
    return Done(done.returncode, done.stdout or b"", done.stderr or b"")


def seen(top, times=True):
    """What lies below a folder: of each path its kind, permissions, owner, time but for a symlink's, bytes or target, and the
    first path of the same object."""
    first, found = {}, {}
    for folder, folders, files in os.walk(os.fsencode(top)):
        for name in sorted([b"", *folders, *files]):
            path = os.path.join(folder, name) if name else folder
            if not name and folder != os.fsencode(top):
                continue
            is_ = os.lstat(path)
            inside = os.path.relpath(path, os.fsencode(top))
            content = os.readlink(path) if stat.S_ISLNK(is_.st_mode) else b""
            if stat.S_ISREG(is_.st_mode):
                with open(path, "rb") as file:
                    content = file.read()
            is_symlink = stat.S_ISLNK(is_.st_mode)
            time = None if is_symlink or not times else int(is_.st_mtime)
            mode = stat.S_IFMT(is_.st_mode) if is_symlink else is_.st_mode
            found[inside] = (mode, is_.st_uid, is_.st_gid, time, content, first.setdefault(is_.st_ino, inside))
    return found


def plain_tree(top):
    """A folder with something of each kind that comes back whole."""
    os.makedirs(f"{top}/etc/deep/deeper")
    os.makedirs(f"{top}/empty")
    os.makedirs(f"{top}/a space")
    chance = random.Random(7)
    for name, size in (("none", 0), ("one", 1), ("page", 4096), ("past", 4097), ("large", 300000)):
        write(f"{top}/etc/{name}", chance.randbytes(size))
    write(f"{top}/a space/in it", chance.randbytes(9000))
    write(f"{top}/line\nfeed", b"x")
    write(f"{top}/back\\slash", b"\\")
    write(f"{top}/\u00e9\u4e2d", "\u00e9".encode())
    write(f"{top}/{'n' * 254}", b"long")
    os.link(f"{top}/etc/one", f"{top}/z-one")
    os.link(f"{top}/etc/one", f"{top}/etc/deep/one")
    os.symlink("../one", f"{top}/etc/deep/link")
    os.symlink("/no such/place", f"{top}/dangling")
    os.symlink("etc", f"{top}/to-etc")
    for number, (path, mode) in enumerate((("etc/none", 0o4755), ("etc/one", 0o640), ("etc/past", 0o444), ("empty", 0o1777), ("etc", 0o2750), ("", 0o711))):
        os.chmod(f"{top}/{path}", mode)
    for folder, _, files in os.walk(top, topdown=False):
        for name in [*files, ""]:
            if not os.path.islink(f"{folder}/{name}"):
                os.utime(f"{folder}/{name}", (TIME, TIME + len(name)))


def there_and_back():
    """A folder by listing, build and extract is the folder."""
    os.mkdir("plain")
    plain_tree("plain/tree")
    listed = run("listing", "plain/tree")
    verdict("a folder is listed", listed.status == 0 and listed.err == b"", listed)
    verdict("it is listed as it was", run("listing", "plain/tree") == listed)
    write("plain/tree.txt", listed.out)
    for order in ("little", "big"):
        image, back = f"plain/{order}.img", f"plain/{order}"
        built = run("build", "--blocks", "32", "--endian", order, "plain/tree.txt", image)
        verdict(f"the listing builds, {order}", built.status == 0, built)
        owners = ["--owners"] if IS_ROOT else []
        done = run("extract", "--endian", order, *owners, image, back)
        verdict(f"the image is extracted, {order}", done == Done(0, b"", b""), done)
        verdict(f"the folder is back, {order}", seen(back) == seen("plain/tree"))
    # A symlink of the host has the time at which it is made.
    again, once = run("listing", "--time", "1", "plain/little"), run("listing", "--time", "1", "plain/tree")
    verdict("its listing is the same", again.out.replace(b"plain/little/", b"plain/tree/") == once.out, again)
    done = run("extract", "plain/little.img", "plain/little")
    verdict("a folder that is there is not filled", done == Done(1, b"", b"jffs2_image: P1 File plain/little\njffs2_image: note: plain/little: exists\n"), done)
    verdict("and stays as it is", seen("plain/little") == seen("plain/tree"))


def not_listed(name, why):
    """What is said of a folder that is not read: the system's reason too, where it has one."""
    reason = {"no such folder": "no such file", "plain/tree.txt/folder": "a part of the path is no directory"}.get(name)
    note = f"jffs2_image: note: {name}: {reason}\n" if reason else ""
    return f"not listed: {why}\njffs2_image: P1 File {name}\n{note}".encode()


def with_settings():
    """One owner and one time for all, and nothing of the host's."""
    done = run("listing", "--owner", "7", "65535", "--time", "9", "--quiet", "plain/tree")
    lines = done.out.split(b"\n")
    verdict("one time", done.status == 0 and [l for l in lines if l.startswith(b"time")] == [b"time 9"], done)
    verdict("one owner", [l for l in lines if l.startswith(b"owner")] == [b"owner 7 65535"], done)
    verdict("the root too", lines[1] == b"attr 711 7 65535 9 9 /", done)
    for words in (["--owner", "1"], ["--owner", "1", "65536"], ["--owner", "1", "x"], ["--time", "4294967296"], ["--time", ""]):
        done = run("listing", *words, "plain/tree")
        verdict(f"wrong settings {words}", done.status == 2 and done.out == b"", done)
    os.symlink("plain/tree", "way")
    for name, why in (("no such folder", "the host refused it"), ("plain/tree.txt/folder", "the host refused it"), ("plain/tree.txt", "no directory"), ("way", "a symlink, which is not followed")):
        done = run("listing", name)
        verdict(f"no folder: {name}", done == Done(1, b"", not_listed(name, why)), done)


def read(path):
    with open(path, "rb") as file:
        return file.read()


def by_hand(name, words, flags, image):
    """An image of a folder by `listing` and `build`: what is told of both, and the status of the first that does not end well."""
    listed = run("listing", *words, name)
    write("by_hand.txt", listed.out)
    built = run("build", *flags, "by_hand.txt", image)
    return Done(built.status or listed.status, built.out, listed.err + built.err)


def packed():
    """`pack` writes what `build` makes of the listing, byte for byte, and tells what both tell."""
    for words in ([], ["--owner", "7", "65535", "--time", "9"], ["--time", "0", "--quiet"]):
        for flags in (["--endian", "big"], ["--block", "131072", "--page", "8192"], ["--weak"]):
            wanted = by_hand("plain/tree", words, [*flags, "--blocks", "32"], "by_hand.img")
            verdict(f"by hand, {words} {flags}", wanted.status in (0, 3) and os.path.getsize("by_hand.img") > 300000, wanted)
            for blocks in (["--blocks", "32"], []):
                done = run("pack", *words, *flags, *blocks, "plain/tree", "packed.img")
                verdict(f"packed, {words} {flags} {blocks}", done == wanted and read("packed.img") == read("by_hand.img"), done)
    os.remove("packed.img")
    for name, why in (("no such folder", "the host refused it"), ("plain/tree.txt/folder", "the host refused it"), ("plain/tree.txt", "no directory"), ("way", "a symlink, which is not followed")):
        done = run("pack", name, "packed.img")
        wanted = Done(1, b"", not_listed(name, why))
        verdict(f"nothing is packed of {name}", done == wanted and not os.path.exists("packed.img"), done)
    for flags in (["--block", "4100"], ["--block", "1"], ["--block", "0"], ["--block", "4294967295"], ["--block", "4096"], ["--blocks", "0"], ["--blocks", "4097"]):
        blocks = [] if "--blocks" in flags else ["--blocks", "1"]
        wanted = by_hand("plain/tree", [], [*flags, *blocks], "by_hand.img")
        done = run("pack", *flags, "plain/tree", "packed.img")
        verdict(f"no flash: {flags}", done.status == 1 and done == wanted and not os.path.exists("packed.img"), done)
    wanted = by_hand("plain/tree", [], ["--blocks", "2"], "by_hand.img")
    done = run("pack", "--blocks", "2", "plain/tree", "packed.img")
    full = b"jffs2_image: S2 Full " in done.err and done.status == 1 and done == wanted
    verdict("a flash that is full holds what was accepted", full and read("packed.img") == read("by_hand.img"), done)
    done = run("pack", "plain/tree", "plain/tree")
    verdict("no file can be made", done == Done(1, b"", b"jffs2_image: P1 File plain/tree\njffs2_image: note: plain/tree: is a directory\n"), done)
    os.mkdir("nothing")
    done = run("pack", "--owner", "0", "0", "--time", "0", "nothing", "packed.img")
    verdict("an empty folder", done == by_hand("nothing", ["--owner", "0", "0", "--time", "0"], ["--blocks", "1"], "by_hand.img"), done)
    with open("/dev/full", "wb") as full_disk:
        done = run("pack", "plain/tree", "packed.img", stdout=full_disk, stderr=subprocess.PIPE)
        verdict("a full output", (done.status, done.err) == (1, lines_of("P5 Output").encode()), done)
        done = run("pack", "no such folder", "unmade.img", stdout=subprocess.PIPE, stderr=full_disk)
        verdict("notes on a full stream", done.status == 1 and not os.path.exists("unmade.img"), done)


def what_a_listing_cannot_say():
    """What is left out is told in order, the rest is listed, and the status is 3."""
    os.makedirs("odd/in")
    write("odd/kept", b"")
    write("odd/" + "n" * 255, b"")
    for name in (b"odd/\xff", b"odd/\xfe", b"odd/x\x80", b"odd/in/\xff"):
        write(name, b"")
    write("odd/old", b"")
    os.utime("odd/old", (0, -1))
    write("odd/late", b"")
    os.utime("odd/late", (0, 1 << 32))
    for name, size in (("sparse", 268435457), ("a sparse", 67108865)):
        with open(f"odd/{name}", "wb") as file:
            file.truncate(size)
    wanted = {b"/" + b"n" * 255, b"/", b"/in/", b"/old", b"/late", b"/sparse"}
    if IS_ROOT:
        write("odd/owned", b"")
        os.chown("odd/owned", 65536, 0)
        wanted.add(b"/owned")
    done = run("listing", "odd")
    told = [line.split(b": ")[0].removeprefix(b"left out ") for line in done.err.splitlines()]
    verdict("what a listing can't say", done.status == 3 and set(told) == wanted and len(told) == len(wanted), done)
    made = [line for line in done.out.split(b"\n") if line.split(b" ")[0] in (b"create", b"part", b"write", b"file", b"mkdir")]
    verdict("the rest is listed", made == [b"file 644 /a\\x20sparse odd/a\\x20sparse", b"mkdir 755 /in", b"file 644 /kept odd/kept"], done)
    lines = done.err.splitlines()
    verdict("names that are no text are counted", {b"left out /: names that are no text: 3", b"left out /in/: names that are no text: 1"} <= set(lines), done)
    verdict("a file that no listing can have", b"left out /sparse: more than 268435456 bytes" in lines, done)
    done = run("listing", "--owner", "0", "0", "--time", "0", "odd")
    verdict("settings say what the host can't", b"/old" in done.out and b"/late" in done.out and done.status == 3, done)
    wanted = by_hand("odd", ["--quiet"], ["--blocks", "4096"], "by_hand.img")
    done = run("pack", "odd", "packed.img")
    verdict("pack leaves out the same", wanted.status == 3 and done == wanted and read("packed.img") == read("by_hand.img"), done)
    shutil.rmtree("odd")


def queues():
    """FIFOs and sockets are listed and built; a FIFO without a writer is not opened."""
    os.makedirs("queues/d")
    write("queues/a", b"a")
    os.mkfifo("queues/d/p", 0o640)
    os.link("queues/d/p", "queues/q")
    unix = socket.socket(socket.AF_UNIX)
    unix.bind("queues/d/s x")
    os.chmod("queues/d/s x", 0o1711)
    os.chmod("queues/d/p", 0o640)
    if IS_ROOT:
        os.chown("queues/q", 7, 8)
    done = run("listing", "--time", "9", "queues")
    unix.close()
    lines = [line for line in done.out.split(b"\n") if line.split(b" ")[0] in (b"fifo", b"socket", b"file", b"link")]
    wanted = [b"file 644 /a queues/a", b"fifo 640 /d/p", b"socket 1711 /d/s\\x20x", b"fifo 640 /q"]
    verdict("FIFOs and sockets are listed, for each name", done.status == 0 and done.err == b"" and lines == wanted, done)
    write("queues.txt", done.out)
    done = run("build", "--blocks", "1", "queues.txt", "queues.img")
    verdict("they are built", done.status == 0, done)
    done = run("ls", "queues.img")
    told = [line.split(b" ") for line in done.out.splitlines()]
    is_ = os.lstat("queues/d/p")
    owner = [str(is_.st_uid).encode(), str(is_.st_gid).encode()]
    found = {words[7]: (words[0], words[1], words[2:4] == owner, words[4]) for words in told if words[7] in (b"/d/p", b"/q")}
    wanted = {b"/d/p": (b"p", b"0640", True, b"0"), b"/q": (b"p", b"0640", True, b"0")}
    verdict("FIFOs are in the image", done.status == 0 and found == wanted, done)
    sockets = [(words[0], words[1], words[4], words[7]) for words in told if words[0] == b"s"]
    verdict("a socket is", sockets == [(b"s", b"1711", b"0", b"/d/s\\x20x")], done)


def more_names_than_16_bits_count():
    """Each name of a directory of 65,600 is listed."""
    os.makedirs("many")
    for i in range(65600):
        os.mkfifo(f"many/{i}")
    done = run("listing", "--quiet", "many")
    names = {line.rsplit(b"/", 1)[1] for line in done.out.splitlines() if line.startswith(b"fifo ")}
    wanted = {b"%d" % i for i in range(65600)}
    verdict("a directory of 65,600 names is listed whole", done.status == 0 and done.err == b"" and names == wanted, done)
    shutil.rmtree("many")


def devices():
    """Devices are listed with their numbers, built in both orders, and left out by `extract`."""
    if not IS_ROOT:
        return
    os.makedirs("nodes/d")
    for name, kind, mode, major, minor in (("a", stat.S_IFCHR, 0o600, 4, 1), ("d/b", stat.S_IFBLK, 0o640, 259, 65537), ("z", stat.S_IFBLK, 0o604, 4095, 1048575)):
        os.mknod(f"nodes/{name}", kind, os.makedev(major, minor))
        os.chmod(f"nodes/{name}", mode)
    done = run("listing", "--owner", "5", "6", "--time", "9", "nodes")
    lines = [line for line in done.out.split(b"\n") if line.startswith(b"device ")]
    wanted = [b"device c 600 4 1 /a", b"device b 640 259 65537 /d/b", b"device b 604 4095 1048575 /z"]
    verdict("devices are listed", done.status == 0 and done.err == b"" and lines == wanted, done)
    wanted = by_hand("nodes", ["--time", "9"], ["--blocks", "1", "--endian", "big"], "by_hand.img")
    packed_nodes = run("pack", "--time", "9", "--endian", "big", "nodes", "packed.img")
    verdict("devices are packed", packed_nodes == wanted and wanted.status == 0 and read("packed.img") == read("by_hand.img"), packed_nodes)
    write("nodes.txt", done.out)
    for order in ("little", "big"):
        done = run("build", "--endian", order, "--blocks", "1", "nodes.txt", "nodes.img")
        verdict(f"they are built, {order}", done.status == 0, done)
        done = run("ls", "--endian", order, "nodes.img")
        told = [line.split(b" ") for line in done.out.splitlines()]
        found = [(words[0], words[1], words[2:5], words[7]) for words in told if words[0] in (b"b", b"c")]
        wanted = [(b"c", b"0600", [b"5", b"6", b"0"], b"/a"), (b"b", b"0640", [b"5", b"6", b"0"], b"/d/b"), (b"b", b"0604", [b"5", b"6", b"0"], b"/z")]
        verdict(f"they are in the image, {order}", done.status == 0 and found == wanted, done)
    done = run("extract", "--endian", "big", "nodes.img", "nodes.out")
    lines = [b"left out /a: character device", b"left out /d/b: block device", b"left out /z: block device"]
    verdict("they are left out by extract", done.status == 3 and done.err.splitlines()[:3] == lines, done)


def any_name():
    """Files of any name, which are read by the escapes of a path."""
    os.makedirs("names\n of\\x41/d")
    chance = random.Random(11)
    wanted = {}
    for name in ("a b", "line\nfeed", "back\\slash", "\\x41", "\u00e9\u4e2d", "\t\x01\x7f", "#", "-", "a'\"$*"):
        wanted[name] = chance.randbytes(len(name) * 1000)
        write(f"names\n of\\x41/d/{name}", wanted[name])
    done = run("listing", "names\n of\\x41")
    files_listed = [line for line in done.out.split(b"\n") if line.startswith(b"file ")]
    verdict("each is a line", done.status == 0 and len(files_listed) == len(wanted) and all(len(line.split(b" ")) == 4 for line in files_listed), done)
    verdict("no bytes are written out", b"\nwrite " not in done.out and b"\npart " not in done.out, done)
    write("any.txt", done.out)
    done = run("build", "--blocks", "4", "any.txt", "any.img")
    verdict("they are built", done.status == 0, done)
    done = run("extract", "any.img", "any")
    found = {}
    for name in os.listdir("any/d"):
        with open(f"any/d/{name}", "rb") as file:
            found[name] = file.read()
    verdict("they come back", done == Done(0, b"", b"") and found == wanted, done)


def files(*entries):
    """An image of the root with these entries, each a name, an inode's kind and its bytes, numbered from 2 on."""
    nodes = []
    for number, (name, mode, content) in enumerate(entries, start=2):
        nodes.append(inode(number, 1, 0, len(content), content, mode))
        nodes.append(entry(1, number, number, name))
    return laid(nodes)


def twins():
    """A symlink `x` out of the folder, and a directory `y` by the names `y` and `x/..`; then what lies below names of both."""
    return laid([
        inode(2, 1, 0, 4, b"/tmp", SYMLINK), entry(1, 1, 2, b"x"),
        inode(3, 1, 0, 0, b"", DIRECTORY), entry(1, 2, 3, b"y"), entry(1, 3, 3, b"x/evil"), entry(1, 4, 3, b".."), entry(1, 5, 3, b"."),
        inode(4, 1, 0, 4, b"evil"), entry(3, 1, 4, b"f"), entry(3, 2, 4, b"../g"), entry(3, 3, 4, b"/tmp/h"), entry(3, 4, 4, b"z\0"),
        entry(3, 5, 4, b"\xff"), entry(3, 6, 2, b"x"),
    ])


CORPUS = {
    "dots": (files((b"..", DIRECTORY, b""), (b".", DIRECTORY, b""), (b"a", 0o100644, b"a")), {b"a"}),
    "slashes": (files((b"a/b", 0o100644, b"x"), (b"/etc/passwd", 0o100644, b"x"), (b"../up", 0o100644, b"x")), set()),
    "zero bytes": (files((b"a\0b", 0o100644, b"x"), (b"b", 0o100644, b"x")), {b"b"}),
    "no text": (files((b"\xff\xfe", 0o100644, b"x"), (b"b", SYMLINK, b"\xff")), set()),
    "kinds": (files((b"p", 0o010644, b""), (b"c", 0o020644, b"\1\3"), (b"s", 0o140644, b""), (b"o", 0o170000, b"")), set()),
    "targets": (files((b"l", SYMLINK, b""), (b"z", SYMLINK, b"a\0b"), (b"o", SYMLINK, b"/etc")), {b"o"}),
    "twins": (twins(), {b"x", b"y", b"y/f", b"y/x"}),
    "loops": (images.circles(30), None),
    "circle": (images.circle(), {b"d"}),
    "depths": (images.depths(1000), None),
}


def below(top):
    """All paths below a folder."""
    return {os.path.relpath(os.path.join(folder, name), os.fsencode(top)) for folder, folders, names in os.walk(os.fsencode(top)) for name in folders + names}


def whatever_the_image_says():
    """Nothing is made outside the new folder, and in it only what a host can hold."""
    os.mkdir("hostile")
    for about, (image, wanted) in CORPUS.items():
        write("hostile.img", image)
        os.makedirs("hostile/here")
        temporary, before = set(os.listdir("/tmp")), seen("hostile", times=False)
        done = run("extract", "hostile.img", "hostile/here/new")
        made = below("hostile/here/new")
        shutil.move("hostile/here/new", "made")
        outside = seen("hostile", times=False) == before and not {"evil", "f", "g", "h"} & (set(os.listdir("/tmp")) - temporary)
        verdict(f"nothing outside: {about}", outside, done)
        verdict(f"status of {about}", done.status in (0, 3) and (done.status == 3) == (b"left out " in done.err), done)
        if wanted is not None:
            verdict(f"what is made of {about}", made == wanted, Done(done.status, repr(made).encode(), done.err))
        subprocess.run(["rm", "-rf", "made", "hostile/here"], check=True)
    os.rmdir("hostile")


def deep_and_long():
    """Directories in one another up to the longest path of a host, and no further."""
    write("deep.img", images.depths(1000))
    done = run("extract", "deep.img", "deep")
    verdict("1,000 levels", done.status == 0 and os.path.isdir("deep" + "/d" * 1000), done)
    verdict("1,000 levels are listed", run("listing", "deep").out.count(b"mkdir ") == 1000)
    write("deeper.img", laid(node for k in range(40) for node in (entry(k + 1, 1, k + 2, b"n" * 254), inode(k + 2, 1, 0, 0, b"", DIRECTORY))))
    done = run("extract", "deeper.img", "deeper")
    verdict("a path that no host takes", done.status == 3 and done.err.count(b"left out ") == 1, done)
    subprocess.run(["rm", "-rf", "deep", "deeper"], check=True)


def in_the_way():
    """The new folder is made by the program, or nothing is."""
    write("one.img", files((b"a", 0o100644, b"a")))
    os.symlink("elsewhere", "dangle")
    rows = (
        ("a dangling symlink", "dangle", "exists"),
        ("a file", "one.img", "exists"),
        ("a folder below a file", "one.img/new", "a part of the path is no directory"),
        ("no folder above", "no/such", "no such file"),
        ("no name", "", "no such file"),
        ("a long name", "x" * 256, "no file can have this name"),
    )
    for about, name, why in rows:
        done = run("extract", "one.img", name)
        verdict(f"{about} is no new folder", done == Done(1, b"", f"jffs2_image: P1 File {name}\njffs2_image: note: {name}: {why}\n".encode()), done)
    verdict("nothing is made through a symlink", not os.path.exists("elsewhere"))
    done = run("extract", "no such image", "new")
    verdict("no image, no folder", done == Done(1, b"", b"jffs2_image: P1 File no such image\njffs2_image: note: no such image: no such file\n") and not os.path.exists("new"), done)
    write("not.img", laid([inode(1, 1, 0, 0, b"", 0o100644)]))
    done = run("extract", "not.img", "new")
    verdict("what does not mount makes no folder", done.status == 1 and done.err.startswith(b"jffs2_image: M") and not os.path.exists("new"), done)
    write("dirty.img", files((b"a", 0o100644, b"a")) + b"dirt")
    done = run("extract", "dirty.img", "dirty")
    verdict("findings are noted", done.status == 3 and b"note: 1 finding," in done.err and os.path.exists("dirty/a"), done)


def on_bad_streams():
    """A listing that does not go out whole is a fault."""
    with open("/dev/full", "wb") as full:
        done = run("listing", "plain/tree", stdout=full, stderr=subprocess.PIPE)
        verdict("a full output", (done.status, done.err) == (1, lines_of("P5 Output").encode()), done)
        done = run("listing", "odd2", stdout=subprocess.PIPE, stderr=full)
        verdict("notes on a full stream", done.status == 1, done)


def what_the_host_refuses():
    """A file that can't be written whole is told, and the rest goes on."""
    write("big.img", files((b"a", 0o100644, b"a"), (b"b", 0o100644, bytes(4096)), (b"c", 0o100644, bytes(2000))))
    with subprocess.Popen([PROGRAM, "extract", "big.img", "small"], stderr=subprocess.PIPE, preexec_fn=lambda: resource.setrlimit(resource.RLIMIT_FSIZE, (3000, 3000)), restore_signals=False) as child:
        err = child.stderr.read()
    is_told = err == b"left out /b: the host refused it\n"
    verdict("a file that the host does not take", child.returncode == 3 and is_told, Done(child.returncode, b"", err))
    torn = os.lstat("small/b")
    verdict("it is for its owner alone", stat.S_IMODE(torn.st_mode) == 0o600 and torn.st_size <= 3000)
    verdict("the rest goes on", os.path.getsize("small/c") == 2000 and stat.S_IMODE(os.lstat("small/c").st_mode) == 0o644)


def on_a_terminal():
    """Progress is told on a terminal alone, not with --quiet, and is taken away at the end."""
    # The lines of 500 names fill the terminal, or the pipe, which is not read for more than a second: so long the work takes.
    write("slow.img", files(*((b"%03d" % k + b"n" * 240, 0o010644, b"") for k in range(500)), (b"z", 0o100644, b"z")))
    for words, name in ((["--quiet"], "quiet"), ([], "slow")):
        main, end = pty.openpty()
        with subprocess.Popen([PROGRAM, "extract", *words, "slow.img", name], stdin=subprocess.DEVNULL, stdout=end, stderr=end) as child:
            os.close(end)
            time.sleep(1.5)
            told = b""
            try:
                while piece := os.read(main, 4096):
                    told += piece
            except OSError:
                pass
        os.close(main)
        done = Done(child.returncode, told, b"")
        verdict(f"the lines on a terminal {words}", (child.returncode, told.count(b"left out /")) == (3, 500), done)
        verdict(f"progress {words}", (b" objects\r" in told) != bool(words), done)
        behind = told.rpartition(b" objects\r")[2]
        verdict(f"it is taken away {words}", bool(words) or b" " * 20 + b"\r" in behind, done)
        shutil.rmtree(name)
    with open("slow.txt", "wb") as out, subprocess.Popen([PROGRAM, "extract", "slow.img", "slow"], stdout=out, stderr=subprocess.PIPE) as child:
        time.sleep(1.5)
        told = child.stderr.read()
    verdict("no progress into a file", child.returncode == 3 and b"objects" not in told, Done(child.returncode, told, b""))


def owners_and_times():
    """An owner unlike its group, and a time of reading unlike that of the last change."""
    os.mkdir("two")
    write("two/a", b"a")
    os.utime("two/a", (5, 7))
    if IS_ROOT:
        os.chown("two/a", 1000, 1001)
    is_ = os.lstat("two/a")
    done = run("listing", "two")
    wanted = b"file 644 /a two/a\n"
    verdict("the time of the last change", b"\ntime 7\n" in done.out and done.out.endswith(wanted), done)
    verdict("the owner and the group", f"\nowner {is_.st_uid} {is_.st_gid}\n".encode() in done.out or (is_.st_uid, is_.st_gid) == (0, 0), done)
    listing = "create 644 /a\nattr 640 1000 1001 5 7 /a\nmkdir 755 /d\nattr 750 1002 1003 8 9 /d\n"
    write("two.txt", listing)
    done = run("build", "--blocks", "1", "two.txt", "two.img")
    verdict("two owners and two times are built", done.status == 0, done)
    done = run("extract", *(["--owners"] if IS_ROOT else []), "two.img", "two.back")
    verdict("and extracted", done == Done(0, b"", b""), done)
    for path, mode, owner, times in (("a", 0o640, (1000, 1001), (5, 7)), ("d", 0o750, (1002, 1003), (8, 9))):
        is_ = os.lstat(f"two.back/{path}")
        verdict(f"the times of {path}", (is_.st_atime, is_.st_mtime) == times)
        verdict(f"the permissions of {path}", stat.S_IMODE(is_.st_mode) == mode)
        verdict(f"the owners of {path}", (is_.st_uid, is_.st_gid) == owner or not IS_ROOT)


def mounted(*places):
    """Mounts an empty file system at each place. Answers whether that went."""
    return all([subprocess.run(["mount", "-t", "tmpfs", "tmpfs", place], capture_output=True, check=False).returncode == 0 for place in places])


def on_two_file_systems():
    """Files of one number on two file systems are no links of one another."""
    os.makedirs("disks/a")
    os.makedirs("disks/b")
    if not IS_ROOT or not mounted("disks/a", "disks/b"):
        print("on_two_file_systems: left out, since nothing can be mounted here", flush=True)
        subprocess.run(["umount", "disks/a"], capture_output=True, check=False)
        return
    try:
        for place in ("a", "b"):
            write(f"disks/{place}/x", place)
            os.link(f"disks/{place}/x", f"disks/{place}/y")
        numbers = [os.lstat(f"disks/{place}/x") for place in ("a", "b")]
        verdict("they have one number", numbers[0].st_ino == numbers[1].st_ino and numbers[0].st_dev != numbers[1].st_dev)
        done = run("listing", "--owner", "0", "0", "--time", "0", "disks")
        wanted = [line for place in ("a", "b") for line in (f"file 644 /{place}/x disks/{place}/x", f"link /{place}/x /{place}/y")]
        told = [line for line in done.out.decode().splitlines() if line.split(" ")[0] in ("file", "link")]
        verdict("each has its own content and links", done.status == 0 and told == wanted, done)
    finally:
        subprocess.run(["umount", "disks/a", "disks/b"], check=True)


def may_not_be_read():
    """What the user may not read is told, and has no line that `build` fails at."""
    os.makedirs("secret/hidden")
    for name, content, mode in (("closed", b"x", 0), ("none", b"", 0), ("open", b"o", 0o644)):
        write(f"secret/{name}", content)
        os.chmod(f"secret/{name}", mode)
    os.chmod("secret/hidden", 0)
    os.chmod(".", 0o755)
    # The program may stand where another user can't reach it.
    shutil.copy(PROGRAM, "program")
    os.chmod("program", 0o755)
    other = {"user": 65534, "group": 65534, "extra_groups": []} if IS_ROOT else {}
    words = ["listing", "--owner", "0", "0", "--time", "0", "secret"]
    done = run(*words, stdout=subprocess.PIPE, stderr=subprocess.PIPE, executable=os.path.abspath("program"), **other)
    left_out = b"".join(b"left out /%s: the host refused it\n" % name for name in (b"closed", b"hidden", b"none"))
    verdict("it is told", (done.status, done.err) == (3, left_out), done)
    rest = b"\nfile 644 /open secret/open\n"
    verdict("the rest is listed", done.out.endswith(rest) and b"closed" not in done.out, done)
    write("secret.txt", done.out)
    done = run("build", "--blocks", "1", "secret.txt", "secret.img", stdout=subprocess.PIPE, stderr=subprocess.PIPE)
    verdict("the listing builds", done.status == 0, done)
    os.chmod("secret/hidden", 0o700)


def into_itself():
    """The listing that is written into the folder is not in it."""
    os.mkdir("self")
    write("self/a", b"a")
    for name in ("tree.txt", "a space"):
        with open(f"self/{name}", "wb") as out:
            done = run("listing", "--owner", "0", "0", "--time", "0", "self", stdout=out, stderr=subprocess.PIPE)
        with open(f"self/{name}", "rb") as file:
            listed = file.read()
        told = name.replace(" ", "\\x20").encode()
        verdict(f"it leaves itself out: {name}", (done.status, done.err) == (3, b"left out /" + told + b": the listing itself\n"), done)
        verdict(f"the rest is there: {name}", b"file 644 /a self/a\n" in listed and told not in listed)
        os.remove(f"self/{name}")


def in_a_race():
    """What another puts into the new folder while it is filled is not gone through, and stays."""
    # The lines of 500 names fill the pipe, which is not read until the names at which the others stand are taken.
    slashed = [(b"a/%03d" % k + b"n" * 240, 0o100644, b"") for k in range(500)]
    nodes = files(*slashed, (b"y", DIRECTORY, b""), (b"z", 0o100644, b"new"))
    write("race.img", laid([nodes, entry(502, 1, 900, b"in"), inode(900, 1, 0, 2, b"in")]))
    os.mkdir("elsewhere.d")
    write("elsewhere.f", b"old")
    with subprocess.Popen([PROGRAM, "extract", "race.img", "race"], stdin=subprocess.DEVNULL, stdout=subprocess.DEVNULL, stderr=subprocess.PIPE) as child:
        while not os.path.isdir("race") and child.poll() is None:
            time.sleep(0.01)
        os.symlink("../elsewhere.d", "race/y")
        os.symlink("../elsewhere.f", "race/z")
        err = child.stderr.read()
    done = Done(child.returncode, b"", err)
    verdict("names that are taken are told", done.status == 3 and err.endswith(b"left out /y: the host refused it\nleft out /z: the host refused it\n"), done)
    with open("elsewhere.f", "rb") as file:
        verdict("nothing goes through them", file.read() == b"old" and os.listdir("elsewhere.d") == [])
    verdict("they stay", os.readlink("race/y") == "../elsewhere.d" and os.readlink("race/z") == "../elsewhere.f")


def set_id_bits():
    """They are given with the owners alone, and their number is noted."""
    modes = {b"u": 0o104755, b"g": 0o102711, b"b": 0o106777, b"d": 0o043775, b"t": 0o101644}
    write("bits.img", files(*((name, mode, b"" if mode & 0o040000 else b"x") for name, mode in modes.items())))
    done = run("extract", "bits.img", "dropped")
    note = b"jffs2_image: note: objects that lost set-user-id or set-group-id bits: 4, see extract --owners\n"
    verdict("set-id bits are noted", (done.status, done.err) == (0, note), done)
    found = {name: stat.S_IMODE(os.lstat(os.path.join(b"dropped", name)).st_mode) for name in modes}
    verdict("no set-id bit without owners", found == {name: mode & 0o1777 for name, mode in modes.items()}, Done(0, repr(found).encode(), b""))
    if not IS_ROOT:
        return
    done = run("extract", "--owners", "bits.img", "kept")
    found = {name: stat.S_IMODE(os.lstat(os.path.join(b"kept", name)).st_mode) for name in modes}
    verdict("set-id bits with owners", done.status == 0 and done.err == b"" and found == {name: mode & 0o7777 for name, mode in modes.items()}, done)


def missing_inodes():
    """A name whose inode is missing is told, and the rest goes on."""
    write("missing.img", laid([entry(1, 1, 9, b"gone"), inode(2, 1, 0, 1, b"x"), entry(1, 2, 2, b"there")]))
    done = run("extract", "missing.img", "missing")
    verdict("a name without an inode", done == Done(3, b"", b"left out /gone: no inode\n") and os.listdir("missing") == ["there"], done)


def further_names():
    """A further name of a symlink is a link to it, as one of a file is."""
    write("names.img", laid([inode(2, 1, 0, 4, b"/tmp", SYMLINK), entry(1, 1, 2, b"a"), entry(1, 2, 2, b"b")]))
    done = run("extract", "names.img", "names")
    verdict("two names of a symlink", done.status == 0 and os.lstat("names/a").st_ino == os.lstat("names/b").st_ino, done)


def holes():
    """Blocks of zeros take no room, however large the file is that an image claims."""
    claimed = 64 << 20
    write("bomb.img", laid(node for k in range(4) for node in (inode(k + 2, 1, 0, claimed, b""), entry(1, k + 1, k + 2, b"%d" % k))))
    done = run("extract", "bomb.img", "bomb")
    sizes = [os.lstat(f"bomb/{k}") for k in range(4)]
    verdict("a bomb", done.status == 0 and all((is_.st_size, is_.st_blocks) == (claimed, 0) for is_ in sizes), done)
    shutil.rmtree("bomb")
    write("holes.img", laid(node for k in range(1000) for node in (inode(k + 2, 1, 0, 8191, b""), entry(1, k + 1, k + 2, b"%d" % k))))
    done = run("extract", "holes.img", "holes")
    sizes = {(is_.st_size, is_.st_blocks) for is_ in (os.lstat(f"holes/{k}") for k in range(1000))}
    verdict("a thousand files that are holes", done.status == 0 and sizes == {(8191, 0)}, done)
    shutil.rmtree("holes")
    content = bytes(8192) + b"x" + bytes(10000)
    write("hole.img", laid([
        inode(2, 1, 0, len(content), content[:4096]), inode(2, 2, 8192, len(content), b"x"), entry(1, 1, 2, b"f"),
    ]))
    done = run("extract", "hole.img", "hole")
    with open("hole/f", "rb") as file:
        same = file.read() == content
    verdict("a file with holes", done.status == 0 and same and os.lstat("hole/f").st_blocks * 512 <= 4096, done)


def kept(path):
    """Permissions and time of a folder."""
    is_ = os.lstat(path)
    return is_.st_mode, int(is_.st_mtime)


def parts_of_a_tree():
    """What is made of a path is that part of the whole: a directory at its place, any other object by its last name."""
    os.mkdir("parts")
    plain_tree("parts/tree")
    write("parts/tree.txt", run("listing", "parts/tree").out)
    run("build", "--blocks", "32", "parts/tree.txt", "parts/image")
    run("compress", "parts/image", "parts/packed")
    done = run("extract", "parts/image", "parts/whole")
    verdict("the whole is extracted", done.status == 0, done)
    for number, path in enumerate(("/etc", "/etc/deep", "/etc/deep/deeper", "/empty", "/a\\x20space")):
        place = path.replace("\\x20", " ")
        for words in (["parts/image"], ["--decompress", "parts/packed"]):
            folder = f"parts/{number}-{len(words)}"
            done = run("extract", *words, folder, path)
            differing = subprocess.run(["diff", "-r", "--no-dereference", f"parts/whole{place}", f"{folder}{place}"], check=False).returncode
            same = seen(f"{folder}{place}") == seen(f"parts/whole{place}")
            verdict(f"{path} is that of the whole, {len(words)}", done.status == 0 and differing == 0 and same, done)
            names = place.split("/")[1:]
            way = ["/".join(names[:k]) for k in range(len(names))]
            alone = all(os.listdir(f"{folder}/{above}") == [name] for above, name in zip(way, names))
            verdict(f"{path} has nothing beside it, {len(words)}", alone)
            verdict(f"the way to {path} is that of the whole, {len(words)}", all(kept(f"{folder}/{k}") == kept(f"parts/whole/{k}") for k in way))
    for number, path in enumerate(("/etc/past", "/etc/deep/one", "/z-one", "/line\\x0afeed", "/etc/deep/link", "/to-etc")):
        place = path.replace("\\x0a", "\n")
        name = place.rsplit("/", 1)[1]
        done = run("extract", "parts/image", f"parts/file{number}", path)
        new, old = seen(f"parts/file{number}"), seen("parts/whole")
        same = new[os.fsencode(name)][:5] == old[os.fsencode(place[1:])][:5] and new[os.fsencode(name)][5] == os.fsencode(name)
        verdict(f"{path} is there by its last name", done.status == 0 and sorted(new) == sorted([b".", os.fsencode(name)]) and same, done)
        verdict(f"the folder of {path} is the root", new[b"."] == old[b"."])
    done = run("extract", "parts/image", "parts/root", "/")
    verdict("/ is the whole", done.status == 0 and seen("parts/root") == seen("parts/whole"), done)


def paths_of_no_part():
    """Which fault comes, and in which order; no folder is made."""
    write("part.img", laid([inode(2, 1, 0, 0, b"", DIRECTORY), entry(1, 1, 2, b"d"), inode(3, 1, 0, 1, b"x"), entry(2, 1, 3, b"f"), entry(1, 2, 9, b"x")]))
    write("clash.img", laid([inode(2, 1, 0, 1, b"x"), inode(2, 1, 0, 1, b"y")]))
    os.mkdir("there")
    rows = (
        ("part.img", "new", "/none", "P3 Path NotFound"),
        ("part.img", "new", "/d/none/f", "P3 Path NotFound"),
        ("part.img", "new", "/x", "P3 Path NotFound"),
        ("part.img", "new", "/d/f/g", "P3 Path NotDirectory"),
        ("part.img", "new", "d", "P3 Path BadPath"),
        ("part.img", "new", "/d/", "P3 Path BadPath"),
        ("part.img", "new", "/d/../d", "P3 Path BadPath"),
        ("part.img", "there", "/none", "P3 Path NotFound"),
        ("part.img", "there", "/d", "P1 File there\njffs2_image: note: there: exists"),
        ("none.img", "new", "/d\\q", "P3 Path BadPath"),
        ("none.img", "new", "d", "P1 File none.img\njffs2_image: note: none.img: no such file"),
        ("clash.img", "new", "/d\\x4", "P3 Path BadPath"),
        ("clash.img", "new", "/none", "M5 Clash at 00000048"),
    )
    for image, folder, path, fault in rows:
        # What `decompress` makes has its nodes at other addresses.
        for words in ([], ["--decompress"])[:1 if "M5" in fault else 2]:
            done = run("extract", *words, image, folder, path)
            note = CLASH_NOTE if "M5" in fault else ""
            told = f"{lines_of(fault)}{note}".encode()
            verdict(f"{fault} of {path} {words}", done == Done(1, b"", told), done)
    verdict("no folder is made of it", not os.path.exists("new") and os.listdir("there") == [])
    done = run("extract", "part.img", "new", "/d/f", "/d")
    verdict("one path alone", done.status == 2 and not os.path.exists("new"), done)


def a_full_disk():
    """It ends the work, by one line, where a small file system can be mounted."""
    os.mkdir("small_disk")
    mounted = subprocess.run(["mount", "-t", "tmpfs", "-o", "size=64k", "none", "small_disk"], stderr=subprocess.DEVNULL, check=False)
    if mounted.returncode != 0:
        print("not run: a full disk (no file system can be mounted here)")
        return
    try:
        write("large.img", laid(node for k in range(60) for node in (inode(k + 2, 1, 0, 4000, b"x" * 4000), entry(1, k + 1, k + 2, b"%02d" % k))))
        done = run("extract", "large.img", "small_disk/new")
        verdict("a full disk", done == Done(1, b"", lines_of("P7 NoSpace small_disk/new").encode()), done)
    finally:
        subprocess.run(["umount", "small_disk"], check=True)


def extended_attributes():
    """Their nodes are counted in a note, and found."""
    write("attributes.img", files((b"a", 0o100644, b"a")) + images.header(0xE008, 12))
    done = run("extract", "attributes.img", "attributes")
    verdict("extended attributes are noted", done.status == 3 and b"note: nodes of extended attributes, which are not extracted: 1\n" in done.err, done)


GROUPS = (
    there_and_back,
    with_settings,
    packed,
    what_a_listing_cannot_say,
    queues,
    more_names_than_16_bits_count,
    devices,
    any_name,
    owners_and_times,
    on_two_file_systems,
    may_not_be_read,
    into_itself,
    in_a_race,
    whatever_the_image_says,
    deep_and_long,
    in_the_way,
    on_bad_streams,
    what_the_host_refuses,
    on_a_terminal,
    set_id_bits,
    missing_inodes,
    further_names,
    holes,
    parts_of_a_tree,
    paths_of_no_part,
    a_full_disk,
    extended_attributes,
)


def main():
    signal.signal(signal.SIGXFSZ, signal.SIG_IGN)
    # Folders are 1,000 in one another.
    sys.setrecursionlimit(10000)
    os.umask(0o022)
    return run_all(GROUPS)


if __name__ == "__main__":
    sys.exit(main())
