#!/usr/bin/env bash
# Lets Linux write images until blocks were collected, as a device does, and mount what `compact` makes of them: it has to show the
# same tree, and goes on writing there.
# Usage: tests/peers/compact.sh [PROGRAM [KERNEL]]. KERNEL is as for linux.sh. The last line is 'N passed, M failed'; status 77
# where something is missing. It is no part of tests/all.sh, because it needs those packages. README.md has what was seen.
set -u
here=$(cd "$(dirname "$0")" && pwd)
. "$here/boots.sh" "$@"
compare compact.py
