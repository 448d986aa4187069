#!/usr/bin/env bash
# Puts images that mkfs.jffs2 of Debian's package mtd-utils makes of folders of this host into one dump, as partitions of a whole
# flash, and compares what the program reads of each by --offset and --length with the folder, and with the image alone.
# Usage: tests/peers/parts.sh [PROGRAM]. The last line is 'N passed, M failed'; status 77 where the package is missing. It is no part
# of tests/all.sh. README.md has what was seen.
set -u
TOOLS="mkfs.jffs2"
. "$(dirname "$0")/needs.sh"
exec python3 -B "$here/parts.py" "$program"
