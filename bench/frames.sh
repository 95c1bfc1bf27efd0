#!/usr/bin/env bash
# Times crates/frames beside the same scan in Rust over memchr, on 100 MB of each of three kinds of bytes.
#
#   bench/frames.sh [ROUNDS]
#
# A round runs, on each kind, the proved program, the Rust program, and one that only reads; all read standard input in pieces of 64 KB.
# Printed, on average over the rounds: CPU seconds of a run, user and system; the proved program's speed as a part of the Rust program's;
# and the same for the scans alone, without the time to read. Both programs must print the same count of reports. Data and programs go
# to target/bench.
. "$(dirname "$0")/common.sh"
rounds=${1:-40}
build scan_bench
build_rust scan_rust frames.rs

printf '%-10s %10s %10s %10s %8s %12s %9s\n' '100 MB of' 'proved, s' 'Rust, s' 'read, s' 'ratio' 'scans alone' 'reports'
for kind in plain frames escapes; do
    data=$out/$kind.bytes
    [ -s "$data" ] || "$out/scan_rust" make "$kind" >"$data"
    a=0 b=0 r=0
    for ((i = 0; i < rounds; i++)); do
        a=$((a + $(run "$data" "$out/proved.txt" target/bin/scan_bench)))
        b=$((b + $(run "$data" "$out/rust.txt" "$out/scan_rust")))
        r=$((r + $(run "$data" /dev/null "$out/scan_rust" read)))
        cmp "$out/proved.txt" "$out/rust.txt"
    done
    awk -v kind="$kind" -v a="$a" -v b="$b" -v r="$r" -v n="$rounds" -v reports="$(cat "$out/proved.txt")" 'BEGIN {
        printf "%-10s %10.4f %10.4f %10.4f %8.2f %12.2f %9s\n", kind, a / n / 1000, b / n / 1000, r / n / 1000, b / a, (b - r) / (a - r), reports
    }'
done
