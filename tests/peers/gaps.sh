#!/usr/bin/env bash
# Damages images that mkfs.jffs2 and sumtool of Debian's package mtd-utils make of folders of this host, and compares the gaps that
# `damage` prints with the bytes that `extract` gives and with the nodes that were lost. Sound images have no gap.
# Usage: tests/peers/gaps.sh [PROGRAM [KIB]]. KIB are those of each folder, at most: 1024 without it. The last line is
# 'N passed, M failed'; status 77 where the package is missing. It is no part of tests/all.sh. README.md has what was seen.
set -u
TOOLS="mkfs.jffs2 sumtool"
. "$(dirname "$0")/needs.sh"
export KIB=${2:-1024}
exec python3 -B "$here/gaps.py" "$program"
