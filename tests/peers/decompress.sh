#!/usr/bin/env bash
# Compares `decompress` with a producer of real images: what mkfs.jffs2 of Debian's package
# mtd-utils makes of a folder, compressed in each way, is decompressed, read, extracted and extended here, and
# compared with the folder.
# Usage: tests/peers/decompress.sh [PROGRAM]. The last line is 'N passed, M failed'; status 77 where
# the package is missing. It is no part of tests/all.sh. README.md has what was seen.
set -u
TOOLS="mkfs.jffs2 sumtool jffs2dump"
. "$(dirname "$0")/needs.sh"
exec python3 -B "$here/decompress.py" "$program"
