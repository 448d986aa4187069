#!/usr/bin/env bash
# Lets Linux write images until blocks were collected, and mount what is left of what `update` writes to them, where writing stopped
# at random: each path has to show what it showed after a beginning of the steps, and Linux goes on writing there.
# Usage: tests/peers/update.sh [PROGRAM [KERNEL [STOPS]]]. KERNEL is as for linux.sh. The last line is 'N passed, M failed'; status
# 77 where something is missing. It is no part of tests/all.sh, because it needs those packages. README.md has what was seen.
set -u
here=$(cd "$(dirname "$0")" && pwd)
. "$here/boots.sh" "$@"
export STOPS=${3:-300}
compare update.py
