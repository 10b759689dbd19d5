#!/usr/bin/env bash
# Checks the scripts and what docs/CLAIMS.md cites, and runs the gate of Rattle: it proves every crate from nothing, tries the must-fail edits
# and runs the programs; then tests the second implementation, the command and the library, compares both implementations on drawn files,
# pairs of files, inputs and stores and prints how many cases that were, and holds the stored cases to those that the second one makes.
set -eu
cd "$(dirname "$0")/.."
PATH="$PATH:${CARGO_HOME:-$HOME/.cargo}/bin"

made=$(mktemp -d)
trap 'rm -rf "$made"' EXIT

scripts/setup.sh --test
scripts/lint.sh --scripts
scripts/check-claims

# The gate passes an edit that can't be applied, and says so on its line `rt: ok`; here each one must be refused.
status=0
{ rt ci 2>&1 || echo $? >"$made/status"; } | tee "$made/gate"
[ ! -s "$made/status" ] || status=$(cat "$made/status")
if [ "$status" -ne 0 ] || grep -Eq '^rt: ok.*, [1-9][0-9]* bad' "$made/gate"; then
    echo "rt ci didn't pass, or edits couldn't be applied"
    echo "0 passed, 1 failed"
    exit 1
fi

scripts/staticlib.sh zs
# Both commands use one build: the same packages are named, so that these have the same features. What lets a later build begin from parts
# of this one only costs time here.
export CARGO_INCREMENTAL=0
(cd cli && cargo test --offline --quiet --workspace -- --skip the_same_answers)
(cd cli && cargo test --offline --quiet --workspace --test same_answers -- --nocapture)

scripts/make-corpus.sh "$made"
if ! diff -rq "$made/data" crates/test_archives/data || ! cmp "$made/stdout" crates/test_archives/stdout; then
    echo "the stored cases aren't those that the second implementation makes: scripts/make-corpus.sh crates/test_archives"
    echo "0 passed, 1 failed"
    exit 1
fi
echo "1 passed, 0 failed"
