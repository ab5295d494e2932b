#!/usr/bin/env bash
# Runs inspect on the sample payloads and frames, and on the sample stream: run.sh
# Prints what it says, and fails if that is not crates/inspect/stdout or crates/inspect_trace/stdout, or if README.md shows lines that are not in them.
set -euo pipefail
root=$(cd "$(dirname "$0")/../.." && pwd -P)
program=$root/crates/inspect/out/inspect
mkdir -p "$root/build"

# A crate with a sample, how a line that begins something new looks, and the arguments.
shows() {
    local sample=$root/crates/$1 begins=$2
    shift 2
    "$program" "$@" "$sample/stdin" | tee "$root/build/inspected"
    diff "$sample/stdout" "$root/build/inspected"
    "$root/tools/shown.py" "$sample/stdout" "$begins"
}

shows inspect 'line \d+[:,]'
shows inspect_trace 'offset \d+:' --trace
