#!/usr/bin/env bash
# Compares what `ls`, `cat` and `check` show with --decompress of compressed images of mkfs.jffs2, of each method, both orders,
# several blocks and pages, and sumtool, with the folder and with the independent model of tests/decompress_model.py.
# Usage: tests/peers/through.sh [PROGRAM]. The last line is 'N passed, M failed'; status 77 where the package is missing. It is no
# part of tests/all.sh. README.md has what was seen.
set -u
TOOLS="mkfs.jffs2 sumtool"
. "$(dirname "$0")/needs.sh"
exec python3 -B "$here/through.py" "$program"
