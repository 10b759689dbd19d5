#!/usr/bin/env bash
# Looks at the scripts with shellcheck, and at cli/ and bench/ with rustfmt and clippy. What isn't installed is skipped, and said to be.
#   scripts/lint.sh            everything
#   scripts/lint.sh --scripts  the scripts alone, as the gate does
set -eu
cd "$(dirname "$0")/.."
PATH="$PATH:${CARGO_HOME:-$HOME/.cargo}/bin"
case "${1:-}" in
"") scope=all ;;
--scripts) scope=scripts ;;
*)
    echo "usage: scripts/lint.sh [--scripts]" >&2
    exit 2
    ;;
esac

# look WHAT PROBE COMMAND..: runs the command, if the probe finds its tool.
look() {
    local what=$1 probe=$2
    shift 2
    if ! $probe >/dev/null 2>&1; then
        echo "skipped: $what, for want of '$probe'"
        return
    fi
    if ! "$@"; then
        echo "failed: $what"
        echo "0 passed, 1 failed"
        exit 1
    fi
    echo "ok: $what"
    echo "1 passed, 0 failed"
}

# cargo_in FOLDER ARGUMENT..
cargo_in() {
    (cd "$1" && shift && cargo "$@")
}

look "the scripts" "shellcheck --version" shellcheck scripts/*.sh .ci/run
if [ "$scope" = scripts ]; then
    exit
fi
for folder in cli bench; do
    look "the format of $folder" "cargo fmt --version" cargo_in "$folder" fmt --check
    look "clippy of $folder" "cargo clippy --version" \
        cargo_in "$folder" clippy --offline --quiet --workspace --all-targets -- -D warnings
done
