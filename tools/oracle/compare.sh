#!/usr/bin/env bash
# Compares the library with the answers of the original Rust and of the model, at scale: compare.sh [SOURCES [SCALE [SEED]]]
# Cases are made, answered and packed here, and replayed by the program vectors, which `tools/program.sh vectors` builds: first those of gen.py, then
# by chance 5,000 frames and 1,000 streams of them for each 1 of SCALE. Fails if an answer differs, a row, a difference of kinds.txt or a step of a
# stream never occurred, or a kind, or a frame with each check, was never read or written; if a program ends with another status than 0 or says
# anything else than it has to; and if the oracle or vectors had another number of cases than were made.
set -euo pipefail
. "$(dirname "$0")/steps.sh"
scale=${2:-1000}
seed=${3:-20261115}
RUST=${1-} SCALE=$scale SEED=$seed "$root/tools/arguments.py" RUST SCALE SEED

# Whether a pipe did what it has to: passed MADE DIFFERENCES PROGRAMS STATUS..
passed() {
    local made=$1 names=$2 programs=$3
    shift 3
    if [[ ! "$*" =~ ^0( 0)*$ ]] || ! tallied "$out/said" "$made" "$names" || ! cmp -s "$out/compared" <(echo "$made cases, 0 differ"); then
        cat "$out/said" "$out/compared" >&2
        fail "$made cases were made; $programs ended with $*, and said the above"
    fi
    cat "$out/said"
}

replayed() {
    echo "(scale $scale, seed $seed), made, answered and replayed in $((SECONDS - start)) s: 0 differ"
}

# So many frames or streams by chance: by_chance NAME MADE. Adds a line to those that say what was done.
by_chance() {
    local name=$1 made=$2 start=$SECONDS ended=(0 0) line
    {
        "$out/oracle" "$name" "$made" "$seed" | "$root/crates/vectors/out/vectors" >"$out/compared" || ended=("${PIPESTATUS[@]}")
    } 2>"$out/said"
    passed "$made" 0 "oracle and vectors" "${ended[@]}"
    line="compare-vectors: $made $name $(replayed)"
    echo "$line"
    lines+="; $line"
}

ready "${1-}"
start=$SECONDS
rm -f "$out/lines" "$out/done"
mkfifo "$out/lines"
wc -l <"$out/lines" >"$out/made" &
ended=(0 0 0 0)
{
    python3 "$here/gen.py" "$scale" "$seed" | tee "$out/lines" | "$out/oracle" pack | "$root/crates/vectors/out/vectors" >"$out/compared" ||
        ended=("${PIPESTATUS[@]}")
} 2>"$out/said"
wait $!
made=$(<"$out/made")
passed "$made" "$differences" "gen.py, tee, oracle and vectors" "${ended[@]}"
named=$(sed 1d "$out/said" | paste -sd ";")
lines="compare-vectors: $made cases $(replayed)${named:+; }$named"
echo "$lines"

by_chance frames $((5000 * scale))
by_chance streams $((1000 * scale))
echo "$lines" >"$out/done"
