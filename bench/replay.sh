#!/usr/bin/env bash
# Times the proved `replay` over a recording of 100 MB of file data in parts of 4,096 bytes, next to `base64 -d` of the same data.
#
#   bench/replay.sh [ROUNDS]
#
# A round runs one after the other. Printed: decoded megabytes a CPU second, user and system, over all rounds. Data and programs go to
# target/bench.
. "$(dirname "$0")/common.sh"
rounds=${1:-5}
build replay
build_rust recording recording.rs
parts=25600
"$out/recording" "$parts" 4096 >"$out/replay.rec"
"$out/recording" "$parts" 4096 base64 >"$out/replay.b64"

a=0 b=0
for ((i = 0; i < rounds; i++)); do
    a=$((a + $(run "$out/replay.rec" "$out/replay.out" target/bin/replay)))
    b=$((b + $(run "$out/replay.b64" /dev/null base64 -d)))
done
grep -aq "sz=$((parts * 4096));st=T0s=" "$out/replay.out"
awk -v a="$a" -v b="$b" -v n="$rounds" -v mb="$((parts * 4096))" 'BEGIN {
    printf "decoded MB a CPU second, %d rounds: replay %.0f, base64 -d %.0f\n", n, mb / 1000 * n / a, mb / 1000 * n / b
}'
