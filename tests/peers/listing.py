"""A folder, and changes of a folder, as listings of operations: docs/FORMAT.md has their form."""
import os
import shutil
import stat

import tree

LONGEST_NAME = 254


def word(path):
    """A path or a target as a word of a listing. Slashes stand as they are."""
    return "/".join(tree.escaped(part) for part in path.split(b"/"))


def plain(folder):
    """Takes out of a folder what a listing cannot say: devices, FIFOs, sockets and names that are too long. Times stay."""
    for path, folders, names in os.walk(folder):
        time = os.stat(path).st_mtime_ns
        for name in folders + names:
            kind = stat.S_IFMT(os.lstat(os.path.join(path, name)).st_mode)
            if kind not in (stat.S_IFDIR, stat.S_IFREG, stat.S_IFLNK):
                os.remove(os.path.join(path, name))
            elif len(name) > LONGEST_NAME:
                (shutil.rmtree if kind == stat.S_IFDIR else os.remove)(os.path.join(path, name))
        os.utime(path, ns=(time, time))


class Parts:
    """The files that `part` lines name. They have plain names, and stand in the folder `parts` of the place that is given."""
    def __init__(self, place):
        self.place, self.count = place, 0
        os.makedirs(os.path.join(place, "parts"), exist_ok=True)

    def add(self, data):
        """Keeps these bytes, and answers the word that a line names them by."""
        self.count += 1
        name = f"parts/{self.count}"
        tree.write(os.path.join(self.place, name), data)
        return name


def building(folder, parts):
    """The lines that build a folder. A name of an object that had one before is a `link` line."""
    lines, first, settings = [], {}, {}

    def setting(key, line):
        if settings.get(key) != line:
            settings[key] = line
            lines.append(line)

    def add(path, shown):
        facts = os.lstat(path)
        mode = f"{stat.S_IMODE(facts.st_mode):04o}"
        if facts.st_ino in first:
            lines.append(f"link {first[facts.st_ino]} {shown}")
            return
        setting("time", f"time {int(facts.st_mtime) % 2**32}")
        setting("owner", f"owner {facts.st_uid % 2**16} {facts.st_gid % 2**16}")
        if stat.S_ISDIR(facts.st_mode):
            lines.append(f"mkdir {mode} {shown}")
            below(path, shown)
        elif stat.S_ISLNK(facts.st_mode):
            first[facts.st_ino] = shown
            lines.append(f"symlink {shown} {word(os.readlink(path))}")
        else:
            first[facts.st_ino] = shown
            with open(path, "rb") as source:
                lines.extend((f"create {mode} {shown}", f"part {shown} 0 {parts.add(source.read())}"))

    def below(path, shown):
        # The order of a listing is free: names may come as the system gives them.
        for name in os.listdir(path):
            add(os.path.join(path, name), shown + "/" + tree.escaped(name))

    below(folder, "")
    return lines


class Changes:
    """Changes a folder, and keeps the lines that say the same. No line changes the time of a directory that is there."""
    TIME = 1700000000
    OWNER = (12, 34)

    def __init__(self, folder, parts):
        self.folder, self.parts = folder, parts
        self.owner = self.OWNER if os.geteuid() == 0 else (os.geteuid(), os.getegid())
        self.lines = [f"time {self.TIME}", "owner %d %d" % tuple(number % 2**16 for number in self.owner)]
        self.times = {facts.st_ino: facts.st_mtime_ns for facts in map(os.stat, self.folders())}

    def folders(self):
        return [path for path, _, _ in os.walk(self.folder)]

    def at(self, path):
        return os.path.join(self.folder, *path.split(b"/")[1:])

    def line(self, name, *words):
        self.lines.append(" ".join([name, *[word(w) if isinstance(w, bytes) else str(w) for w in words]]))

    def touched(self, path, new=False):
        if new:
            os.chown(self.at(path), *self.owner, follow_symlinks=False)
        os.utime(self.at(path), (self.TIME, self.TIME), follow_symlinks=False)

    def make(self, mode, path, data=None):
        """A directory, or a regular file where there are bytes."""
        if data is None:
            os.mkdir(self.at(path))
            self.times.pop(os.stat(self.at(path)).st_ino, None)  # the host may give a number again
            self.line("mkdir", f"{mode:04o}", path)
        else:
            tree.write(self.at(path), data)
            self.line("create", f"{mode:04o}", path)
            self.line("part", path, 0, self.parts.add(data))
        self.touched(path, new=True)
        os.chmod(self.at(path), mode)

    def symlink(self, path, target):
        os.symlink(target, self.at(path))
        self.touched(path, new=True)
        self.line("symlink", path, target)

    def link(self, old, new):
        os.link(self.at(old), self.at(new), follow_symlinks=False)
        self.line("link", old, new)

    def rename(self, old, new):
        os.rename(self.at(old), self.at(new))
        self.line("rename", old, new)

    def remove(self, path, folder=False):
        (os.rmdir if folder else os.remove)(self.at(path))
        self.line("remove", path)

    def truncate(self, path, size):
        os.truncate(self.at(path), size)
        self.touched(path)
        self.line("truncate", path, size)

    def write(self, path, offset, data):
        with open(self.at(path), "r+b") as file:
            file.seek(offset)
            file.write(data)
        if data:
            self.touched(path)
        self.line("write", path, offset, data.hex() or "-")

    def done(self):
        """Gives the directories their times again: the system changed them. The lines."""
        for path in self.folders():
            time = self.times.get(os.stat(path).st_ino, self.TIME * 10**9)
            os.utime(path, ns=(time, time))
        return self.lines
