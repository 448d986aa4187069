#!/usr/bin/env bash
# Lets Linux write images in which two nodes of one version differ, since its garbage collection
# wrote a hole anew, and compares what `decompress --clashes higher` leaves of them with what Linux
# shows.
# Usage: tests/peers/clashes.sh [PROGRAM [KERNEL]]. KERNEL is as for linux.sh. The last line is
# 'N passed, M failed'; status 77 where something is missing. It is no part of tests/all.sh, because
# it needs those packages. README.md has what was seen.
set -u
here=$(cd "$(dirname "$0")" && pwd)
. "$here/boots.sh" "$@"
compare clashes.py
