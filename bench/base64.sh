#!/usr/bin/env bash
# Times Base64's decoding alone: the proved crates/base64_codec, the decoder of tests/reference, and `base64 -d`.
#
#   bench/base64.sh [ROUNDS [OTHER_ROOT]]
#
# OTHER_ROOT is the root of another tree of this project, as a git worktree of an earlier commit that today's kit proves: its
# crates/base64_codec is timed as `before`. A round decodes random data by each decoder in turn, many times, in texts of each length, and
# then one long text by `base64 -d`. Printed: megabytes of text a second, the best of all rounds; of `base64 -d` a CPU second. Data and
# programs go to target/bench.
rounds=${1:-20} other=${2:+$(cd "$2" && pwd)}
. "$(dirname "$0")/common.sh"

# Proves a tree's decoder and builds a static library of it under a name. The crate that exports it stands in a repository of its own, with
# copies of the two crates that it needs; it lies outside the checkout, in which rt ci refuses files that no crate of it has.
library() {
    local name=base64_$1 root=$2 at=$room/$1
    mkdir -p "$at/crates/$name/src"
    cp -r "$root/crates/octets" "$root/crates/base64_codec" "$at/crates"
    grep -E '^(octets|base64_codec):' "$root/crates.txt" >"$at/crates.txt"
    echo "$name staticlib: base64_codec octets" >>"$at/crates.txt"
    cat >"$at/crates/$name/src/lib.rt" <<END
#![tactic(auto)]

// How many bytes were stored at the start of \`out\`, and 0 for a text that was refused.
#[unsafe(no_mangle)]
pub extern "C" fn $name(text: &[u8], out: &mut [u8]) -> usize {
    base64_codec::decode(text, out, 0).unwrap_or(0)
}
END
    (cd "$at/crates/$name" && rt lib) >"$out/check.txt" 2>&1 || { tail -5 "$out/check.txt"; exit 1; }
    link+=(-L "$at/crates/$name/out" -l "static=$name" --cfg "$1")
}

room=$(mktemp -d)
trap 'rm -rf "$room"' EXIT
link=()
library now .
[ -z "$other" ] || library before "$other"
build_rust base64_rust base64.rs "${link[@]}"

size=75000000
"$out/base64_rust" data $size | base64 -w 0 >"$out/base64.text"
for ((i = 0; i < rounds; i++)); do
    "$out/base64_rust"
    echo "5464 base64-d $((size / 3 * 4 / $(run "$out/base64.text" /dev/null base64 -d) / 1000))"
done | awk -v rounds="$rounds" '
    !($1 in rows) { rows[$1]; row[++n] = $1 }
    !($2 in names) { names[$2]; name[++m] = $2 }
    $3 > best[$1, $2] { best[$1, $2] = $3 }
    END {
        printf "MB of text a second, the best of %d rounds\n%10s", rounds, "characters"
        for (j = 1; j <= m; j++) printf " %10s", name[j]
        print ""
        for (i = 1; i <= n; i++) {
            printf "%10s", row[i]
            for (j = 1; j <= m; j++) printf " %10s", best[row[i], name[j]]
            print ""
        }
    }'
rm "$out/base64.text"
