#!/usr/bin/env bash
# Lets Linux mount what `build --compress` and `pack --compress` make of a folder, in both orders: it has to show the folder, and goes
# on writing there. Linux reads the order of its own machine, so jffs2dump of mtd-utils turns the big images into little ones first.
# Usage: tests/peers/packed.sh [PROGRAM [KERNEL]]. KERNEL is as for linux.sh. The last line is 'N passed, M failed'; status 77
# where something is missing. It is no part of tests/all.sh, because it needs those packages. README.md has what was seen.
set -u
here=$(cd "$(dirname "$0")" && pwd)
. "$here/boots.sh" "$@"
compare packed.py
