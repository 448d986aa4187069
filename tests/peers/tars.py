"""What Linux showed, as the guest's tar of it has it: of each path what is compared."""
import tarfile

KINDS = {tarfile.REGTYPE: "-", tarfile.DIRTYPE: "d", tarfile.SYMTYPE: "l", tarfile.FIFOTYPE: "p", tarfile.CHRTYPE: "c", tarfile.BLKTYPE: "b"}


def shown(name):
    """Of each path its kind, mode, owner, time (but for a directory's, which tells of its names), content or device, and the
    paths of the same object."""
    facts, first = {}, {}
    with tarfile.open(name, encoding="utf-8", errors="surrogateescape") as tar:
        for member in tar:
            path = "/" + member.name.removeprefix(".").strip("/")
            if member.type == tarfile.LNKTYPE:
                first[path] = "/" + member.linkname.removeprefix(".").strip("/")
                continue
            kind = KINDS[member.type]
            body = tar.extractfile(member).read() if kind == "-" else member.linkname if kind == "l" else b""
            body = (member.devmajor, member.devminor) if kind in "cb" else body
            facts[path] = (kind, member.mode & 0o7777, member.uid, member.gid, 0 if kind == "d" else member.mtime, body)
    names = {}
    for path in (*facts, *first):
        names.setdefault(first.get(path, path), []).append(path)
    return {path: (*facts[top], tuple(sorted(paths))) for top, paths in names.items() for path in paths}


def differences(got, wanted):
    """Where two trees differ."""
    return [f"{path!r}: {got.get(path)!r:.150}, wanted {wanted.get(path)!r:.150}" for path in sorted(got.keys() | wanted.keys()) if got.get(path) != wanted.get(path)]
