#!/usr/bin/env bash
# Times the proved `replay` and the Rust reference's over the same recordings of 100 MB of file data: parts of 4,096 and of 512 bytes,
# with and without screen output between the commands.
#
#   bench/against.sh [ROUNDS [OTHER_ROOT]]
#
# A round runs one after the other. Printed for each recording: CPU seconds of a run, user and system, on average, and the reference's
# divided by the proved one's. With OTHER_ROOT, another tree of this project in which `replay` is built, that one's too, as `before`. The
# replies must be the same. Data and programs go to target/.
. "$(dirname "$0")/common.sh"
rounds=${1:-5}
before=${2:+$2/target/bin/replay}
build replay
cargo build -q --release --offline --manifest-path tests/reference/Cargo.toml --target-dir target/reference
build_rust recording recording.rs
bytes=104857600

for how in "4096 quiet" "4096 noise" "512 quiet" "512 noise"; do
    read -r size noise <<<"$how"
    "$out/recording" $((bytes / size)) "$size" "$noise" >"$out/against.rec"
    a=0 b=0 c=0
    for ((i = 0; i < rounds; i++)); do
        a=$((a + $(run "$out/against.rec" "$out/proved.out" target/bin/replay)))
        b=$((b + $(run "$out/against.rec" "$out/reference.out" target/reference/release/replay)))
        if [ -n "$before" ]; then
            c=$((c + $(run "$out/against.rec" "$out/before.out" "$before")))
        fi
    done
    cmp "$out/proved.out" "$out/reference.out"
    if [ -n "$before" ]; then
        cmp "$out/before.out" "$out/reference.out"
        awk -v c="$c" -v n="$rounds" -v a="$a" 'BEGIN { printf "before %.3f s, %.2f times that of now; ", c / n / 1000, c / a }'
    fi
    awk -v a="$a" -v b="$b" -v n="$rounds" -v size="$size" -v noise="$noise" -v mb=$((bytes / 1000)) 'BEGIN {
        printf "parts of %d, %s: proved %.3f s (%.0f MB/s), reference %.3f s (%.0f MB/s), ratio %.2f\n",
            size, noise, a / n / 1000, mb * n / a, b / n / 1000, mb * n / b, b / a
    }'
done
rm "$out/against.rec"
