"""Folders that come back by `listing`, `build` and `extract`, and what mkfs.jffs2 makes of them, extracted."""
import itertools
import os
import stat

from judging import produce, run, test

FLASH = 4 << 20


def is_text(name):
    """Whether a name or a target is UTF-8."""
    try:
        name.decode()
    except UnicodeDecodeError:
        return False
    return True


def content_of(path, kind):
    """The target of a symlink, the bytes of a file."""
    if kind == stat.S_IFLNK:
        return os.readlink(path)
    if kind != stat.S_IFREG:
        return b""
    with open(path, "rb") as file:
        return file.read()


def can_come_back(path, limit):
    """Whether an object is of a kind, with a name, a target and an owner that come back."""
    is_ = os.lstat(path)
    kind = stat.S_IFMT(is_.st_mode)
    names = is_text(os.path.basename(path)) and (kind != stat.S_IFLNK or is_text(os.readlink(path)))
    return names and kind in (stat.S_IFDIR, stat.S_IFREG, stat.S_IFLNK) and max(is_.st_uid, is_.st_gid) <= limit


def is_built(path, limit):
    """Whether an object is a device, a FIFO or a socket that `listing` and `build` take, and `extract` leaves out."""
    is_ = os.lstat(path)
    kinds = (stat.S_IFCHR, stat.S_IFBLK, stat.S_IFIFO, stat.S_IFSOCK)
    return is_text(os.path.basename(path)) and stat.S_IFMT(is_.st_mode) in kinds and max(is_.st_uid, is_.st_gid) <= limit


def built_below(top, limit):
    """How many such objects lie below a folder, in directories that come back."""
    paths = [os.path.join(top, name) for name in os.listdir(top)]
    below = [path for path in paths if stat.S_ISDIR(os.lstat(path).st_mode) and can_come_back(path, limit)]
    return sum(is_built(path, limit) for path in paths) + sum(built_below(path, limit) for path in below)


def facts(top, limit=1 << 32):
    """What comes back of a folder: of each path kind, permissions, owner, time but for a symlink's, content, and the first path of
    the same object. And how many objects do not come back, those below them not counted."""
    found, first, lost = {}, {}, 0

    def walk(folder, shown):
        nonlocal lost
        for name in sorted(os.listdir(folder)):
            path, inside = os.path.join(folder, name), shown + b"/" + name
            if not can_come_back(path, limit):
                lost += 1
                continue
            is_ = os.lstat(path)
            kind = stat.S_IFMT(is_.st_mode)
            is_symlink = kind == stat.S_IFLNK
            mode, time = (0, 0) if is_symlink else (stat.S_IMODE(is_.st_mode), int(is_.st_mtime) % 2**32)
            owner = (is_.st_uid % 2**16, is_.st_gid % 2**16)
            found[inside] = (kind, mode, owner, time, content_of(path, kind), first.setdefault(is_.st_ino, inside))
            if kind == stat.S_IFDIR:
                walk(path, inside)

    walk(top, b"")
    return found, lost


def devices(top):
    """The devices below a folder: of each path kind, permissions, owner and number."""
    paths = [os.path.join(folder, name) for folder, _, names in os.walk(top) for name in names]
    found = {os.path.relpath(path, top): os.lstat(path) for path in paths}
    return {path: (is_.st_mode, is_.st_uid, is_.st_gid, is_.st_rdev) for path, is_ in found.items() if stat.S_ISCHR(is_.st_mode) or stat.S_ISBLK(is_.st_mode)}


def differences(got, wanted):
    """Where two folders differ."""
    return [f"{path!r}: {got.get(path)!r:.120}, wanted {wanted.get(path)!r:.120}" for path in sorted(got.keys() | wanted.keys()) if got.get(path) != wanted.get(path)]


def told(status, errors, lost):
    """A line for each object that is left out, one for all names in a directory that are no text, and the status 3 where there is one."""
    lines = errors.splitlines()
    count = sum(int(line.rpartition(" ")[2]) if ": names that are no text: " in line else 1 for line in lines)
    fine = status == (3 if lost else 0) and count == lost and all(line.startswith("left out ") for line in lines)
    return [] if fine else [f"status {status}, {lost} are lost: {errors}"]


def extracted(what, words, image, new, wanted, lost):
    """Extracts an image, and compares what is made. Set-id bits come with the owners alone."""
    owners = ["--owners"] if os.geteuid() == 0 else []
    status, out, errors = run("extract", *words, *owners, image, new)
    if not owners:
        errors = "".join(line for line in errors.splitlines(True) if "note: objects that lost " not in line)
        wanted = {path: (kind, mode & 0o1777, *more) for path, (kind, mode, *more) in wanted.items()}
    test(f"{what}: told", told(status, errors, lost) + ([f"{out!r}"] if out else []))
    test(f"{what}: made", differences(facts(new.encode())[0], wanted))


def there_and_back(folder, place):
    """A folder by `listing`, `build` and `extract` is the folder, but for what a listing can't say, and devices, FIFOs and sockets."""
    wanted, lost = facts(folder, 65535)
    built = built_below(folder, 65535)
    listing, image = os.path.join(place, "folder.txt"), os.path.join(place, "folder.img")
    status, out, errors = run("listing", folder)
    test("listing: told", told(status, errors, lost - built))
    test("listing: the same again", [] if run("listing", folder)[1] == out else ["another text"])
    with open(listing, "wb") as file:
        file.write(out)
    for order, block in itertools.product(("little", "big"), (8192, 65536)):
        words = ["--block", str(block), "--endian", order]
        status, _, errors = run("build", *words, "--blocks", str(FLASH // block), listing, image)
        test(f"listing, build {order} {block}", [] if status == 0 else [f"status {status}: {errors}"])
        extracted(f"listing, build, extract {order} {block}", words, image, os.path.join(place, f"back-{order}-{block}"), wanted, built)


def of_another_producer(folder, place):
    """What mkfs.jffs2 makes of a folder is extracted to the folder, but for what the host can't be given."""
    image = os.path.join(place, "made.img")
    wanted, lost = facts(folder)
    for order, block in itertools.product(("little", "big"), (8192, 65536)):
        side = "-l" if order == "little" else "-b"
        produce(image, folder, side, "-e", f"{block // 1024}KiB")
        words = ["--block", str(block), "--endian", order]
        extracted(f"mkfs.jffs2, extract {order} {block}", words, image, os.path.join(place, f"of-{order}-{block}"), wanted, lost)
