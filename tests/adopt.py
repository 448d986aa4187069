#!/usr/bin/env python3
"""Takes over libraries that another clone has proved: tests/adopt.py DIR, at the top of this one.

Several people, or several tasks of one, work in clones of their own. `rt check` builds on the libraries in crates/*/out/rlib
of its own clone alone, and proves those that are not there. This copies those of the clone DIR, for each crate whose sources,
and all below them, are the same here. What `rt ci` made there serves too. A library is left that is older than a source there,
since nothing says what it was made from. With `.` for DIR what `rt ci` made in this clone itself is made known to `rt check` and
`rt lib` here. A line is printed for each crate that was taken.
"""
import functools
import os
import shutil
import sys

sys.path.insert(0, os.path.dirname(os.path.realpath(shutil.which("rt") or "rt")))
import rtlib  # noqa: E402  (the toolchain's own: what a library is made from)

# It sums a library's files again for each way that leads to it; they do not change meanwhile.
rtlib.Crate.stamp = functools.cache(rtlib.Crate.stamp)


def crates_at(top):
    """The crates of a clone, by their names."""
    return {os.path.basename(it.folder): it for it in rtlib.crates_below(os.path.realpath(top))}


def is_current(crate):
    """Whether a crate's library is there, and no source of it, or of a crate below it, was changed after it was made."""
    if not os.path.isdir(crate.rlib):
        return False
    made = os.path.getmtime(crate.rlib)
    return all(os.path.getmtime(file) <= made for it in [crate, *crate.below()] for file in rtlib.files_of(it.folder))


def take(here, there, stamp):
    """Copies a library, and writes what it was made from."""
    into = f"{here.folder}/out/rlib"
    if not os.path.samefile(here.folder, there.folder):
        shutil.rmtree(into, ignore_errors=True)
        shutil.copytree(f"{there.folder}/out/rlib", into)
    with open(f"{into}/stamp", "w", encoding="utf-8") as it:
        it.write(stamp)


def main():
    if len(sys.argv) != 2:
        sys.exit(__doc__)
    theirs = crates_at(sys.argv[1])
    for name, here in crates_at(".").items():
        there = theirs.get(name)
        if there is None or here.is_built() or not is_current(there):
            continue
        stamp = here.stamp()
        if stamp == there.stamp():
            take(here, there, stamp)
            print(f"took {name}")


if __name__ == "__main__":
    main()
