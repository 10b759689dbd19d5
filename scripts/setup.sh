#!/bin/sh
# Installs what cli/ and scripts/ need on a Debian 12 machine, and only what is missing; with --bench also what bench/ compares with, and
# with --test what the gate would like to have. apt-get isn't called at all where nothing is missing. Warns where the Rattle toolchain isn't
# the one that the file `toolchain` names.
set -eu

missing=""
wanted=""

# Notes a Debian package that isn't installed.
need() {
    state=$(dpkg-query -W -f='${Status}' "$1" 2>/dev/null || true)
    if [ "$state" != "install ok installed" ]; then
        missing="$missing $1"
    fi
}

# Whether a command is there; rustup's folder may not be on the path yet.
have() {
    command -v "$1" >/dev/null 2>&1 || [ -x "${CARGO_HOME:-$HOME/.cargo}/bin/$1" ]
}

# The crates that the command uses: arguments, mapped files, a progress line on a terminal, whether there is one, calls of the system.
need librust-clap-dev
need librust-console-dev
need librust-libc-dev
need librust-clap-derive-dev
need librust-memmap2-dev
need librust-indicatif-dev
# The crates that the independent reader uses.
need librust-crc-dev
need librust-sha2-dev
# The JSON parser that its recogniser of metadata is held to in a test and measured against.
need librust-serde-dev
need librust-serde-json-dev

# The libraries and programs that the library is measured against.
if [ "${1:-}" = --bench ]; then
    need liblmdb-dev
    need libssl-dev
    need liblzma-dev
    have sqlite3 || need sqlite3
    have openssl || need openssl
    have xz || need xz-utils
    have look || need bsdextrautils
fi

# Without it the gate says that it has skipped the scripts.
if [ "${1:-}" = --test ]; then
    have shellcheck || wanted="shellcheck"
fi

# A Rust tool chain from elsewhere does as well as Debian's (1.63 is enough).
have cargo || need cargo
have rustc || need rustc
have cc || need gcc
# What a linker and C programs need; gcc only recommends it.
need libc6-dev
# scripts/check-claims is written in it.
have python3 || need python3

# install PROGRAM PACKAGE..: has apt-get install packages, as root or by way of the program.
install() {
    as_root=""
    if [ "$(id -u)" -ne 0 ]; then
        as_root=$1
    fi
    shift
    $as_root apt-get update
    $as_root env DEBIAN_FRONTEND=noninteractive apt-get install -y --no-install-recommends "$@"
}

if [ -n "$missing" ]; then
    # Word splitting is meant: each word is a package.
    # shellcheck disable=SC2086
    install sudo $missing
fi
# What is only wanted is no reason to ask for a password, or to stop.
if [ -n "$wanted" ]; then
    install "sudo -n" "$wanted" || echo "setup: warning: $wanted can't be installed here" >&2
fi

# The proofs were last checked with this toolchain. Another may do as well, so a difference is no failure.
known=$(cat "$(dirname "$0")/../toolchain")
found=$(rt version 2>/dev/null) || found="none"
if [ "$found" != "$known" ]; then
    echo "setup: warning: the Rattle toolchain here is '$found'; the proofs were checked with '$known'" >&2
fi

# Other releases of Debian bring other versions, which cli/ isn't written for.
for crate in clap-4 clap_derive-4 console-0.15 libc-0.2 memmap2-0.5 indicatif-0.17 crc-1.8 sha2-0.10 serde-1 serde_json-1; do
    set -- /usr/share/cargo/registry/"$crate"*
    if [ ! -d "$1" ]; then
        echo "setup: no $crate in /usr/share/cargo/registry; this needs Debian 12" >&2
        exit 1
    fi
done
