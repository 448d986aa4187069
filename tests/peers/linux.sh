#!/usr/bin/env bash
# Compares the program with JFFS2 of Linux: a stock kernel of Debian, booted by QEMU, writes images that are read and extended here,
# mounts what `build` and `append` write, also where it is cut, and goes on writing on it.
# Usage: tests/peers/linux.sh [PROGRAM [KERNEL]]. KERNEL is the folder where the files of the package of the kernel are, the root
# if the package is installed. The last line is 'N passed, M failed'; status 77 where something is missing.
# It is no part of tests/all.sh, because it needs those packages, and root for owners. README.md has what was seen.
set -u
here=$(cd "$(dirname "$0")" && pwd)
. "$here/boots.sh" "$@"
compare linux.py
