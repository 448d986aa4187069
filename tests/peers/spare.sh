#!/usr/bin/env bash
# Lets Linux write trees on chips of NAND flash, which nandsim has in memory, and compares what the program shows of a dump of
# nanddump with the spare bytes of each page, by --oob, with what it shows of one without, and with Linux; and lets Linux mount what
# `pack` makes for these chips and nandwrite puts there.
# Usage: tests/peers/spare.sh [PROGRAM [KERNEL [LAYOUTS]]]. KERNEL is as for linux.sh; LAYOUTS are some of the chips, as
# '512+16 2048+64', without it all four. The last line is 'N passed, M failed'; status 77 where something is missing. It is no part of
# tests/all.sh, because it needs those packages. README.md has what was seen.
set -u
here=$(cd "$(dirname "$0")" && pwd)
. "$here/boots.sh" "$@"
export LAYOUTS=${3:-}
compare spare.py
