#!/usr/bin/env bash
# Passes all tests: `rt ci` (every proof from nothing, the tests, the program's stored run), and meanwhile the wrong bodies that
# the prover must refuse, and from when it is made on the program as a user meets it and on what is made to do harm; and the
# names in the tables of docs; and at the end each growth refused, and the calls for C, Rust and Python. `rt ci` gets a copy of
# the tree without the wrong bodies, which it would try one after another (tests/edits.py tries many at once), and without the
# benchmarks, which judge nothing and are proved where they are built. The last lines are where the processor time of `rt ci` and
# of the wrong bodies went, crate by crate in minutes, which commit it was (and whether something in the checkout differs from
# it), and 'N passed, M failed'.
set -uo pipefail
cd "$(dirname "$0")/.."
logs=$(mktemp -d)
times=$(mktemp)
copy=$(mktemp -d)
trap 'rm -rf "$logs" "$times" "$copy"' EXIT
passed=0
failed=0

# Adds the counts of each line 'N passed, M failed' of a suite's log. One that has none of them failed, and so did one that ended
# with another status than 0 though nothing is said to have failed.
count() {
  local log=$1 status=$2 good bad
  read -r good bad < <(awk '/^[0-9]+ passed, [0-9]+ failed$/ { good += $1; bad += $3; n++ } END { print good + 0, n ? bad + 0 : 1 }' "$log")
  [ "$status" -eq 0 ] || [ "$bad" -gt 0 ] || bad=1
  passed=$((passed + good))
  failed=$((failed + bad))
}

# Runs a suite where the proofs leave time, and keeps what it wrote and how it ended.
suite() {
  local log=$logs/${1##*/}
  nice -n 10 "$@" > "$log" 2>&1
  echo $? > "$log.status"
}

tar -c --exclude=./.git --exclude=out --exclude=must-fail --exclude='./crates/bench_*' . | tar -x -C "$copy"
sed -i '/^bench_/d' "$copy/crates.txt"
program="$copy/crates/jffs2_image/out/jffs2_image"
: > "$logs/proofs"
(tests/gate_clock.py "$times" tests/edits.py --with-ci --built "$copy" 2>&1 | tee "$logs/proofs"; exit "${PIPESTATUS[0]}") &
proofs=$!
# the program is made long before the last proof is
until { grep -q '^rt: jffs2_image \(proved$\|is kept: \)' "$logs/proofs" && [[ -x $program ]]; } || ! kill -0 $proofs 2> "$logs/gone"; do sleep 1; done
export logs
export -f suite
# what judges no program, and what does: without one each test of theirs would fail, or wait for what never comes
{
  cat << SUITES
tests/completions.py
tests/kit.sh
tests/trace.py
tests/form.py
tests/words.py
tests/pages.py
SUITES
  if [[ -x $program ]]; then
    cat << SUITES
tests/hostile.py $program
tests/decompress.sh $program
tests/program.sh $program
tests/cuts.py $program
tests/folders.py $program
tests/clashes.py $program
tests/compact.py $program
tests/map.py $program
tests/history.py $program
tests/update.py $program
tests/cuts_through.py $program
tests/cuts_update.py $program
tests/damage.py $program
tests/retry.py $program
tests/diff.py $program
tests/spare.py $program
tests/offset.py $program
tests/regions.py $program
tests/json_lines.py $program
tests/upto.py $program
tests/deleted.py $program
tests/verify.py $program
tests/placing.sh $program
tests/listings.py $program
tests/commands.py --try $program
tests/quick.sh $program
tests/release.sh $program
SUITES
  else
    printf 'there is no program: what is tried on it was left out\n0 passed, 1 failed\n' > "$logs/no_program"
    echo 1 > "$logs/no_program.status"
  fi
} | xargs -P "$(nproc)" -L 1 bash -c 'suite "$@"' suite
wait $proofs
count "$logs/proofs" $?
if [[ -x $program ]]; then
  suite tests/growths.py --built "$copy"
  suite tests/bindings.sh --built "$copy" "$program"
fi
for status in "$logs"/*.status; do
  cat "${status%.status}"
  count "${status%.status}" "$(cat "$status")"
done
cat "$times"
echo "commit $(git describe --always --abbrev=40 --exclude='*' --dirty=', changed' 2> "$logs/gone")"
echo "$passed passed, $failed failed"
[ "$failed" -eq 0 ]
