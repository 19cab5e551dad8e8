#!/usr/bin/env bash
# Tests the library and the program from outside: the cargo tests, the C program, the examples, the program's listings, and the
# fuzzer for a minute or as many seconds as asked.
set -euo pipefail
cd "$(dirname "$0")"
seconds=${1:-60}
library=../target/staticlib/libhide.a
program=../target/bin/vietoluyn

if [ ! -f "$library" ]; then
    echo "target/staticlib/libhide.a is missing: run outside/build.sh first" >&2
    exit 1
fi
if [ ! -f "$program" ]; then
    echo "target/bin/vietoluyn is missing: run outside/build.sh first" >&2
    exit 1
fi

echo "== cargo tests"
cargo test --release --offline --workspace

echo "== the C program"
mkdir -p target/c
cc -std=c99 -Wall -Wextra -pedantic -Werror -O2 -I../include c/hide.c "$library" -o target/c/hide
target/c/hide | diff - c/hide.expected
echo "its output is as expected"

echo "== the program"
../examples/sheet ../examples/b1.txt | cmp - ../crates/vietoluyn/stdin
../examples/sheet ../examples/block.txt | "$program" | ../examples/formulas ../examples/block.txt | diff - ../examples/block.expected
echo "the examples come to what they should"
cargo run --release --offline -p fuzz -- program "$program"

echo "== the fuzzer"
cargo run --release --offline -p fuzz -- "$seconds"
