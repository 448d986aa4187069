#!/usr/bin/env bash
# Compares what `ls`, `cat`, `extract` and `check` with --auto make of images of mkfs.jffs2 and sumtool, of which no option says how
# they were made, with the folder of the images; and what they say of files and folders that are no image.
# Usage: tests/peers/auto.sh [PROGRAM]. The last line is 'N passed, M failed'; status 77 where the package is missing. It is no
# part of tests/all.sh. README.md has what was seen.
set -u
TOOLS="mkfs.jffs2 sumtool ubinize"
. "$(dirname "$0")/needs.sh"
exec python3 -B "$here/auto.py" "$program"
