#!/usr/bin/env bash
# Measures the proved library against others, prints the tables and puts them into docs/PERFORMANCE.md and docs/growth.svg.
#   scripts/bench.sh                   some minutes on a quiet machine
#   scripts/bench.sh --quick           small sizes, to see that everything runs; writes no document
#   scripts/bench.sh --before FOLDER   also against an earlier revision that was built in FOLDER; with --quick or without
# FOLDER has cli/target/release/zs, and libzs.a and libbench_exports.a in target/staticlib.
# ZS_LIBRARY_DIR may name a folder with another libzs.a; without it the library is proved and built.
set -euo pipefail
what=(--write docs)
folder=
while [ $# -gt 0 ]; do
    case "$1" in
    --quick) what=(--quick) ;;
    --before)
        for built in cli/target/release/zs target/staticlib/libzs.a target/staticlib/libbench_exports.a; do
            if ! [ -f "${2:-}/$built" ]; then
                echo "bench: ${2:-no folder}: no $built in it" >&2
                exit 2
            fi
        done
        folder=$(realpath "$2")
        shift
        ;;
    *)
        echo "usage: scripts/bench.sh [--quick] [--before FOLDER]" >&2
        exit 2
        ;;
    esac
    shift
done
cd "$(dirname "$0")/.."
PATH="$PATH:${CARGO_HOME:-$HOME/.cargo}/bin"

scripts/setup.sh --bench

if [ -z "${ZS_LIBRARY_DIR:-}" ]; then
    scripts/staticlib.sh zs
fi
scripts/staticlib.sh bench_exports

build() {
    cargo build --offline --release --quiet "$@"
}
(cd cli && build --bin zs)
(cd bench && build && build --bin reference --features portable --target-dir target/portable)

# shared OBJECT LIBRARY..: a shared object of static libraries. Its calls stay within it, and two can be loaded side by side.
shared() {
    local object=$1
    shift
    cc -shared -o "$object" -Wl,-Bsymbolic -Wl,--whole-archive "$@" -Wl,--no-whole-archive
}
shared bench/target/now.so "${ZS_LIBRARY_DIR:-target/staticlib}/libzs.a" target/staticlib/libbench_exports.a
before=()
if [ -n "$folder" ]; then
    shared bench/target/before.so "$folder"/target/staticlib/lib{zs,bench_exports}.a
    before=(--before-zs "$folder/cli/target/release/zs" --before-library "$PWD/bench/target/before.so")
fi

bench/target/release/zs-bench \
    --zs cli/target/release/zs \
    --library "$PWD/bench/target/now.so" \
    --portable bench/target/portable/release/reference \
    --accelerated bench/target/release/reference \
    "${before[@]}" "${what[@]}"
