#!/usr/bin/env bash
# Times mend: the proved program, the mender of tests/reference, and `wc -c`, over recordings of up to 65,536 bytes.
#
#   bench/mend.sh [RUNS]
#
# Each program runs so often over each recording, and as often over an empty one, whose time is taken off: a start takes longer than a
# recording. Printed: megabytes a CPU second, and the microseconds of a start. Data and programs go to target/bench.
runs=${1:-400}
. "$(dirname "$0")/common.sh"
build mend
cargo build -q --release --offline --manifest-path tests/reference/Cargo.toml --target-dir target/reference

# A text that is written over and over, up to 65,536 bytes.
repeated() {
    awk -v t="$1" 'BEGIN { for (n = length(t); n <= 65536; n += length(t)) printf "%s", t }' >"$out/$2.rec"
}

part=$(head -c 4096 /dev/zero | base64 -w 0)
repeated 'screen output \033[0m' noise
repeated '\033]5113;ac=data;id=m;fid=a;d=YWJj\033\\' frames
repeated "\033]5113;ac=data;id=m;fid=a;d=$part\033\\\\" parts
: >"$out/empty.rec"

# CPU microseconds of one run, on average.
each() {
    local data=$1
    shift
    { time for ((k = 0; k < runs; k++)); do "$@" <"$data" >/dev/null 2>&1; done; } 2>&1 | awk -v n="$runs" '{ printf "%.1f", ($1 + $2) * 1e6 / n }'
}

for program in target/bin/mend target/reference/release/mend "wc -c"; do
    start=$(each "$out/empty.rec" $program)
    for data in noise frames parts; do
        size=$(wc -c <"$out/$data.rec")
        awk -v p="$program" -v d="$data" -v s="$start" -v t="$(each "$out/$data.rec" $program)" -v n="$size" \
            'BEGIN { u = t - s; printf "%-32s %-7s %8.0f MB a CPU second, start %.0f us\n", p, d, n / (u > 1 ? u : 1), s }'
    done
done
