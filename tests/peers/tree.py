"""A folder with something of every kind, and what a listing of an image of it has to say."""
import os
import random
import socket
import stat

SIZES = (0, 1, 2, 3, 4, 5, 4095, 4096, 4097, 8191, 8192, 8193, 65536, 100000)
NAMES = (b"two words", b" ", b"back\\slash", b"->", b"a -> b", b"\\x41", b"tab\tfeed\nreturn\r", b"\x01\x1f\x7f\x80\xff",
         "größe.txt".encode(), "名前".encode(), b"-rf", b"...", b"*?[]", b"%s%n", b"y" * 254)
TARGETS = (b"sizes/4096", b"/etc/pass wd", b"../no\\where", b"missing", b"/", b"\xff\n", b"t" * 254)
TIMES = (0, 1, 999999999, 2**31 - 1, 2**31, 2**32 - 1)
OWNERS = ((0, 0), (1000, 100), (65534, 65535), (65536 + 7, 3 * 65536 + 8))
MODES = (0o644, 0o000, 0o777, 0o4755, 0o2755, 0o1777, 0o7777, 0o400)
LETTERS = {stat.S_IFIFO: "p", stat.S_IFCHR: "c", stat.S_IFDIR: "d", stat.S_IFBLK: "b", stat.S_IFREG: "-",
           stat.S_IFLNK: "l", stat.S_IFSOCK: "s"}


def write(path, data):
    with open(path, "wb") as file:
        file.write(data)


def make(root):
    """Makes the folder. Only root can make devices and give files away."""
    def at(*names):
        return os.path.join(root, *names)

    for folder in (b"sizes", b"names", b"links", b"kinds", b"modes", b"owners", b"many", b"empty", b"deep"):
        os.makedirs(at(folder))
    os.makedirs(at(b"deep", *[b"d%d" % i for i in range(20)], b"bottom"))
    numbers = random.Random(1)
    for size in SIZES:
        write(at(b"sizes", b"%d" % size), numbers.randbytes(size))
    write(at(b"sizes", b"zeros"), bytes(30000))
    write(at(b"sizes", b"ones"), b"\xff" * 30000)
    with open(at(b"sizes", b"sparse"), "wb") as file:
        file.write(b"front")
        file.seek(50000)
        file.write(b"middle")
        file.truncate(70001)
    for name in NAMES:
        write(at(b"names", name), name)
        os.mkdir(at(b"names", name[:200] + b".d"))
        write(at(b"names", name[:200] + b".d", name), b"in " + name)
    for i, target in enumerate(TARGETS):
        os.symlink(target, at(b"links", b"link%d" % i))
    write(at(b"links", b"first"), b"linked")
    os.link(at(b"links", b"first"), at(b"links", b"second"))
    os.link(at(b"links", b"first"), at(b"third"))
    os.mkfifo(at(b"kinds", b"fifo"))
    with socket.socket(socket.AF_UNIX) as door:
        door.bind(at(b"kinds", b"s"))
    for mode in MODES:
        if not mode & 0o400 and os.geteuid() != 0:
            continue  # mkfs.jffs2 could not read it
        write(at(b"modes", b"%04o" % mode), b"m")
        os.chmod(at(b"modes", b"%04o" % mode), mode)
        os.mkdir(at(b"modes", b"d%04o" % mode))
        os.chmod(at(b"modes", b"d%04o" % mode), mode | 0o700)
    for i in range(300):
        write(at(b"many", b"file%d" % (i * 7919 % 300)), b"%d" % i)
    if os.geteuid() == 0:
        for name, kind, numbers in ((b"null", stat.S_IFCHR, (1, 3)), (b"disk", stat.S_IFBLK, (8, 0)), (b"wide", stat.S_IFCHR, (300, 70000))):
            os.mknod(at(b"kinds", name), kind | 0o640, os.makedev(*numbers))
        for uid, gid in OWNERS:
            write(at(b"owners", b"%d.%d" % (uid, gid)), b"o")
            os.chown(at(b"owners", b"%d.%d" % (uid, gid)), uid, gid)
    for i, time in enumerate(TIMES):
        write(at(b"time%d" % i), b"")
        os.utime(at(b"time%d" % i), (5, time))
        os.mkdir(at(b"folder%d" % i))
        os.utime(at(b"folder%d" % i), (5, time))


def escaped(name):
    return "".join(chr(b) if 0x21 <= b <= 0x7E and b not in b"\\/" else "\\x%02x" % b for b in name)


class Squash:
    """What options of mkfs.jffs2 change: owners, permissions, times."""
    def __init__(self, owners=False, permissions=False, times=False):
        self.owners, self.permissions, self.times = owners, permissions, times

    def line(self, path, shown):
        facts = os.lstat(path)
        kind, mode = LETTERS[stat.S_IFMT(facts.st_mode)], stat.S_IMODE(facts.st_mode)
        if self.permissions and kind != "l":
            mode &= ~(stat.S_IWGRP | stat.S_IWOTH | stat.S_ISUID | stat.S_ISGID)
        uid, gid = (0, 0) if self.owners else (facts.st_uid % 2**16, facts.st_gid % 2**16)
        time = 0 if self.times else int(facts.st_mtime) % 2**32
        size = facts.st_size if kind in "-l" else 0
        target = " -> " + escaped(os.readlink(path)) if kind == "l" else ""
        return f"{kind} {mode:04o} {uid} {gid} {size} {time}", shown + target


def expected(folder, squash):
    """Each line as (what stands before the number, what stands after it), and the folder's own number."""
    lines = [(("d 0755 0 0 0 0", "/"), 0)]  # mkfs.jffs2 writes no node of the root

    def walk(path, shown):
        for name in sorted(os.listdir(path)):
            below = os.path.join(path, name)
            lines.append((squash.line(below, shown + "/" + escaped(name)), os.lstat(below).st_ino))
            if stat.S_ISDIR(os.lstat(below).st_mode):
                walk(below, shown + "/" + escaped(name))

    walk(folder, "")
    return lines


def listed(text):
    """The lines of `ls` in the same form."""
    lines = []
    for line in text.splitlines():
        words = line.split(" ", 7)
        if len(words) < 8:
            return [((line, "is no line of a listing"), 0)]
        lines.append(((" ".join(words[:6]), words[7]), int(words[6])))
    return lines


def differences(told, wanted):
    """Where two listings differ. Numbers need not be equal, but stand for the same objects."""
    found = []
    a, b = [line for line, _ in told], [line for line, _ in wanted]
    for line in sorted(set(a) - set(b)):
        found.append("only in the image:  %s .. %s" % line)
    for line in sorted(set(b) - set(a)):
        found.append("only in the folder: %s .. %s" % line)
    if not found and a != b:
        found.append("the lines are the same, and their order or count is not")
    pairs = set(zip((n for _, n in told), (n for _, n in wanted)))
    if not found and not len(pairs) == len({x for x, _ in pairs}) == len({y for _, y in pairs}):
        found.append("other names share a number than in the folder")
    return found
