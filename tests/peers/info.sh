#!/usr/bin/env bash
# Compares `info` with what producers of images were told: for what mkfs.jffs2 of Debian's package
# mtd-utils and this program make in each byte order and with blocks of 8 to 256 KiB, the order that
# is printed is the right one and the block size lies within the range. Files of other kinds are
# told, and taken for no image. All lines are compared with tests/info_model.py.
# Usage: tests/peers/info.sh [PROGRAM]. The last line is 'N passed, M failed'; status 77 where the
# package is missing. It is no part of tests/all.sh. README.md has what was seen.
set -u
TOOLS="mkfs.jffs2 sumtool ubinize"
. "$(dirname "$0")/needs.sh"
exec python3 -B "$here/info.py" "$program"
