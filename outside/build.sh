#!/usr/bin/env bash
# Proves and builds the static library, target/staticlib/libhide.a, and the program, target/bin/vietoluyn: both, or the one that is
# named, as in `build.sh library`.
set -euo pipefail
cd "$(dirname "$0")/.."

library() {
    (cd crates/hide_c && rt lib)
    mkdir -p target/staticlib
    cp crates/hide_c/out/libhide_c.a target/staticlib/libhide.a
}

program() {
    # It runs once, on nothing: what it prints for that is of no use here.
    (cd crates/vietoluyn && rt run </dev/null >/dev/null)
    mkdir -p target/bin
    cp crates/vietoluyn/out/vietoluyn target/bin/vietoluyn
}

case ${1:-both} in
    both)
        library
        program
        ;;
    library | program) "$1" ;;
    *)
        echo "usage: build.sh [library|program]" >&2
        exit 2
        ;;
esac
