#!/usr/bin/env bash
# Compares the program with a producer of real images: what mkfs.jffs2 of Debian's package mtd-utils makes of a folder is
# listed and read, and compared with the folder; and what `build` and `append` write is read here and by that package's tools.
# Usage: tests/peers/run.sh [PROGRAM]. The last line is 'N passed, M failed'; status 77 where the package is missing.
# It is no part of tests/all.sh, because it needs that package. README.md has what was seen.
set -u
TOOLS="mkfs.jffs2 sumtool jffs2dump jffs2reader"
. "$(dirname "$0")/needs.sh"
exec python3 -B "$here/compare.py" "$program"
