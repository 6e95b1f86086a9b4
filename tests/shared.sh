# shellcheck shell=bash
# What the scripts of this folder share; each of them sources it. The working folder is then the repository's.
set -Eeuo pipefail
unset CDPATH GIT_DIR GIT_WORK_TREE GIT_INDEX_FILE CARGO_BUILD_TARGET MAKEFLAGS MFLAGS MAKELEVEL

root=$(cd "$(dirname "${BASH_SOURCE[0]}")/.." && pwd -P)
cd "$root"

script=tests/${0##*/}
fail() {
    printf '%s: %s\n' "$script" "$*" >&2
    exit 1
}
trap 'printf "%s: line %d failed\n" "$script" "$LINENO" >&2' ERR
tmp=$(mktemp -d)
trap 'rm -rf "$tmp"' EXIT

# Where the tests put what they build, and where they look for the static library (tests/library, `make lib`).
library=target/staticlib/libcuyrapaq.a
host=target/host
export CARGO_TARGET_DIR=$root/target/cargo CQ_LIB_DIR=$root/target/staticlib
# shellcheck disable=SC2034
bin=$CARGO_TARGET_DIR/release

crates() { # the crates that crates.txt lists, one a line
    sed -n 's/^ *\([a-z0-9_]*\)[^#:]*:.*/\1/p' crates.txt
}

# The C flags of every host.
strict=(-Wall -Wextra -Werror -std=c99 -pedantic -O2 -Iinclude)

compile() { # SOURCE [FLAG..]: the host target/host/NAME, of FOLDER/NAME.c
    local source=$1 name
    shift
    name=${source##*/}
    mkdir -p "$host"
    gcc "${strict[@]}" "$@" "$source" "$library" -o "$host/${name%.c}" || fail "$source does not compile"
}

reference() { # WORDS: cargo in the reference's folder
    (cd reference && cargo "$1" --offline --release --locked "${@:2}")
}

build_reference() { # PROGRAM..
    local words=() program
    for program in "$@"; do words+=(--bin "$program"); done
    reference build "${words[@]}" || fail "the reference does not build: $*"
}
