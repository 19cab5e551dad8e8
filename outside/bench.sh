#!/usr/bin/env bash
# Times the library beside its twin and FLINT in one run, then counts their instructions, again side by side.
set -euo pipefail
cd "$(dirname "$0")"
calls=${1:-64}

if [ ! -e /usr/include/flint/nmod_mat.h ]; then
    echo "libflint-dev is missing; installing it"
    if ! { apt-get update && apt-get install -y libflint-dev; } >/dev/null 2>&1; then
        echo "libflint-dev cannot be had here (that takes Debian, root and a network): FLINT is left out"
    fi
fi

features=()
if [ ! -f ../target/staticlib/libhide.a ]; then
    echo "target/staticlib/libhide.a is missing (run 'outside/build.sh library'): the library is left out"
    features=(--no-default-features)
fi
cargo build --release --offline --quiet -p bench "${features[@]}"
target/release/bench

if ! command -v valgrind >/dev/null || ! command -v callgrind_annotate >/dev/null; then
    echo "valgrind is not here: instructions are not counted"
    exit 0
fi
# Callgrind counts a repeated string instruction once for each byte, so memset and memcpy are asked to use plain vectors.
export GLIBC_TUNABLES=glibc.cpu.x86_rep_stosb_threshold=1000000:glibc.cpu.x86_rep_movsb_threshold=1000000
echo "Instructions a call (callgrind, $calls calls of each)"
printf '%-12s %10s %10s %10s | %12s %13s %10s\n' '' library twin FLINT library/twin FLINT/library FLINT/twin
mkdir -p target/callgrind
for case in $(target/release/bench cases); do
    out=target/callgrind/$case.out
    valgrind --tool=callgrind --callgrind-out-file="$out" target/release/bench count "$case" "$calls" >/dev/null 2>&1
    # One line for each function that was counted, with everything that it calls.
    callgrind_annotate --inclusive=yes --threshold=100 "$out" | awk -v case="$case" -v calls="$calls" '
        match($0, /counted_(library|twin|flint)_/) {
            who = substr($0, RSTART + 8, RLENGTH - 9)
            gsub(",", "", $1)
            if (!(who in count)) count[who] = $1 / calls
        }
        function cell(who) { return who in count ? sprintf("%.0f", count[who]) : "-" }
        function ratio(a, b, digits) { return a in count && b in count ? sprintf("%." digits "f", count[a] / count[b]) : "-" }
        END {
            printf "%-12s %10s %10s %10s | %12s %13s %10s\n", case, cell("library"), cell("twin"), cell("flint"),
                ratio("library", "twin", 3), ratio("flint", "library", 2), ratio("flint", "twin", 2)
        }'
done
