#!/usr/bin/env bash
# Makes the stored cases with the independent reader and writer: DIR/data/ and DIR/stdout.
#   scripts/make-corpus.sh crates/test_archives
set -eu
if [ $# -ne 1 ]; then
    echo "usage: scripts/make-corpus.sh DIR" >&2
    exit 2
fi
mkdir -p "$1"
folder=$(cd "$1" && pwd)
cd "$(dirname "$0")/../cli"
PATH="$PATH:${CARGO_HOME:-$HOME/.cargo}/bin"
cargo run --offline --quiet --bin make-archives -- "$folder"
