#!/usr/bin/env bash
# Compares the proved library with the second implementation on drawn files, pairs of files, inputs, dumps, stores and texts until it is stopped,
# each time with a fresh seed. What differs is saved in differences/.
#   scripts/fuzz.sh [--seed N] [--cases N]
set -eu
cd "$(dirname "$0")/.."
PATH="$PATH:${CARGO_HOME:-$HOME/.cargo}/bin"

scripts/setup.sh
scripts/staticlib.sh zs
(cd cli && cargo build --offline --quiet --release --bin fuzz)
exec cli/target/release/fuzz "$@"
