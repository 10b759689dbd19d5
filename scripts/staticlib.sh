#!/usr/bin/env bash
# Proves static libraries, with all crates below them, and puts each at target/staticlib/libNAME.a. Prints what the check said where one fails.
#   scripts/staticlib.sh NAME..
set -euo pipefail
cd "$(dirname "$0")/.."
mkdir -p target/staticlib
for name in "$@"; do
    if ! said=$(cd "crates/$name" && rt lib 2>&1); then
        echo "$said" >&2
        exit 1
    fi
    cp "crates/$name/out/lib$name.a" target/staticlib/
done
