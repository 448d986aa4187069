#!/usr/bin/env bash
# Compares the kit of this machine with the documents: tests/kit.sh
# What has to match is the id of the logic, the second half of what `rt version` prints; README.md, docs/PROVING.md and the
# program's --version name it. The name of the kit may differ. The last line is 'N passed, M failed'.
set -uo pipefail
cd "$(dirname "$0")/.."
passed=0
failed=0

version=$(rt version)
logic=$(sed -n 's/.* logic \([0-9a-f]\{16\}\)$/\1/p' <<< "$version")
for page in README.md docs/PROVING.md crates/jcommand/src/commands.rt; do
  if [ -n "$logic" ] && grep -q "logic \`\{0,1\}$logic\b" "$page"; then
    passed=$((passed + 1))
  else
    failed=$((failed + 1))
    echo "FAILED $page: it does not name the logic of this machine's kit ($version)"
  fi
done
echo "$passed passed, $failed failed"
[ "$failed" -eq 0 ]
