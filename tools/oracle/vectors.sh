#!/usr/bin/env bash
# Makes crates/vectors/stdin again from the answers of the original Rust and of the models: vectors.sh [SOURCES], with SOURCES as for build.sh.
# The cases of gen.py come first, and streams by chance behind them.
set -euo pipefail
. "$(dirname "$0")/steps.sh"
streams=60
seed=1

# Has the oracle pack so many cases, with so many differences, behind those before: packed MADE DIFFERENCES ARGUMENT..
packed() {
    "$out/oracle" "${@:3}" >>"$out/vectors" 2>"$out/said" || { cat "$out/said" >&2; fail "the oracle failed"; }
    tallied "$out/said" "$1" "$2" || { cat "$out/said" >&2; fail "$1 cases were made, and the oracle said the above"; }
    cat "$out/said"
}

ready "${1-}"
python3 "$here/gen.py" >"$out/cases.txt"
made=$(wc -l <"$out/cases.txt")
: >"$out/vectors"
packed "$made" "$differences" pack <"$out/cases.txt"
packed "$streams" 0 streams "$streams" "$seed"
made=$((made + streams))
if cmp -s "$out/vectors" "$root/crates/vectors/stdin"; then
    echo "crates/vectors/stdin: the same, $made cases"
else
    cp "$out/vectors" "$root/crates/vectors/stdin"
    echo "crates/vectors/stdin: changed, $made cases"
fi
