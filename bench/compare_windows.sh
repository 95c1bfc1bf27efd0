#!/usr/bin/env bash
# Times compare_windows: the proved program and that of tests/reference, on two recordings of up to 65,536 bytes each.
#
#   bench/compare_windows.sh [RUNS]
#
# Three pairs: 26 files, as tests/windows/letters writes them; as many starts as fit, every one matched; and the same with other ids in
# the second, so that each start is looked for in vain. Printed: milliseconds of CPU a run, without those of two empty recordings.
# Data and programs go to target/bench.
runs=${1:-100}
. "$(dirname "$0")/common.sh"
build compare_windows
cargo build -q --release --offline --manifest-path tests/reference/Cargo.toml --target-dir target/reference

# Sessions of 32 files each, sent, opened and cancelled again and again, up to 65,536 bytes: session id $1, into the file $2.
starts() {
    awk -v m="$1" 'BEGIN {
        e = "\033"; ids = "ABCDEFGHIJKLMNOPQRSTUVWXYZabcdef"
        session = e "]5113;ac=send;id=" m e "\\"
        for (i = 1; i <= 32; i++) session = session e "]5113;ac=file;id=" m ";fid=" substr(ids, i, 1) ";n=Lw==" e "\\"
        session = session e "]5113;ac=cancel;id=" m e "\\"
        for (n = length(session); n <= 65536; n += length(session)) printf "%s", session
    }' >"$out/$2"
}

mkdir -p "$out"
python3 tests/windows/letters "$out"
starts m many
starts n other
: >"$out/nothing"

# CPU milliseconds of one run, on average.
each() {
    { time for ((k = 0; k < runs; k++)); do "$@" >/dev/null 2>&1; done; } 2>&1 | awk -v n="$runs" '{ printf "%.3f", ($1 + $2) * 1e3 / n }'
}

for program in target/bin/compare_windows target/reference/release/compare_windows; do
    start=$(each $program "$out/nothing" "$out/nothing")
    for pair in "first second" "many many" "many other"; do
        set -- $pair
        awk -v p="$program" -v d="$pair" -v s="$start" -v t="$(each $program "$out/$1" "$out/$2")" \
            'BEGIN { printf "%-40s %-13s %8.2f ms, start %.2f ms\n", p, d, t - s, s }'
    done
done
