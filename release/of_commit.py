#!/usr/bin/env python3
"""Says whether a program or an archive is of the sources here, as far as that can be known:
release/of_commit.py FILE

FILE is crates/NAME/out/FILE, in this copy of the repository or in another one, such as that in which
the gate works. The crate NAME and those below it must have the same sources there as here, and the
same lines in crates.txt. Nothing may have changed there since FILE was built: by the stamp that
`rt run` leaves next to it, which has a sum of the sources, of the kit and of FILE; or, if there is
none, no source is younger than FILE. That FILE was proved is what `rt` is trusted for. If it is so,
a line says how it is known; else the status is 1, and a line on standard error says what differs.
"""
import functools
import os
import shutil
import sys

sys.path.insert(0, os.path.dirname(os.path.realpath(shutil.which("rt") or "rt")))
import rtlib  # noqa: E402  (the toolchain's own: what a program is made from)

# It sums a library's files again for each way that leads to it; they do not change meanwhile.
rtlib.Crate.stamp = functools.cache(rtlib.Crate.stamp)
HERE = os.path.dirname(os.path.dirname(os.path.abspath(__file__)))


class Differs(Exception):
    """What shows that FILE is of other sources."""


def place_of(file):
    """The copy of the repository that FILE is in, and its crate."""
    if not os.path.isfile(file):
        raise Differs(f"{file} is not there: build it by rt run, or rt lib for the archive")
    folder, out = os.path.split(os.path.dirname(file))
    crates, name = os.path.split(folder)
    top = os.path.dirname(crates)
    if out != "out" or os.path.basename(crates) != "crates" or not os.path.isfile(f"{top}/crates.txt"):
        raise Differs(f"{file} is not in the folder crates/NAME/out of a copy of the repository")
    return top, name


def with_those_below(top, name):
    """The crates below the one with this name, lowest first, and then that one."""
    for crate in rtlib.crates_below(top):
        if os.path.basename(crate.folder) == name:
            return [*crate.below(), crate]
    raise Differs(f"{top} has no crate {name}")


def how_known(file):
    """How it is known that FILE is of the sources here."""
    top, name = place_of(file)
    here, there = with_those_below(HERE, name), with_those_below(top, name)
    stamps = {it.name: it.stamp() for it in there}
    for crate in here:
        if crate.stamp() != stamps.get(crate.name):
            raise Differs(f"the sources of {crate.name} in {top} are other ones")
    if os.path.isfile(file + ".stamp"):
        if rtlib.text_of(file + ".stamp") != stamps[here[-1].name] + rtlib.sum_of(file):
            raise Differs(f"{file}.stamp is of other sources, another kit or another program")
        return "by the stamp of rt run"
    built = os.path.getmtime(file)
    for path in (path for it in there for path in rtlib.files_of(it.folder)):
        if os.path.getmtime(path) > built:
            raise Differs(f"{path} is younger than {file}")
    return "no source is younger"


def main():
    try:
        print(how_known(os.path.realpath(sys.argv[1])))
    except Differs as it:
        print(f"of_commit.py: {it}", file=sys.stderr)
        return 1
    return 0


sys.exit(main())
