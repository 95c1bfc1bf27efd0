# What the benchmarks share: sourced at their start. Data and programs go to target/bench.
set -euo pipefail
cd "$(dirname "${BASH_SOURCE[0]}")/.."
out=target/bench
mkdir -p "$out"

# Proves and builds a program.
build() {
    bin/build "$1" >"$out/check.txt" 2>&1 || { tail -5 "$out/check.txt"; exit 1; }
}

# Builds a Rust program of this folder; further words go to rustc.
build_rust() {
    rustc --edition 2021 -O -o "$out/$1" "bench/$2" "${@:3}"
}

# CPU milliseconds of one run, user and system: from where it reads, where it writes, and the command.
TIMEFORMAT='%3U %3S'
run() {
    local data=$1 to=$2
    shift 2
    { time "$@" <"$data" >"$to"; } 2>&1 | awk '{ printf "%.0f", ($1 + $2) * 1000 }'
}
