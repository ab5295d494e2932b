#!/usr/bin/env bash
# Builds the bench: build.sh BINARY LIBRARY READERS TEXTS [FLAG ..]
# LIBRARY, READERS and TEXTS are archives, or objects that stand in for them; the flags go to rustc. tools/oracle/build.sh has to have been run.
set -eu
here=$(cd "$(dirname "$0")" && pwd -P)
oracle=$here/../../build/oracle
binary=$1 library=$2 readers=$3 texts=$4
shift 4

# The Rust's check of a text's bytes is private, and nothing of the Rust is in this repository: its lines are cut out, and printable.rs includes them.
awk '/^    fn validate_ascii\(/ { inside = 1 } inside { print } inside && /^    }$/ { whole = 1; exit } END { exit !whole }' \
    "$oracle/src/command/text.rs" >"$oracle/validate_ascii.rs" ||
    { echo "$0: the Rust's command/text.rs has no function validate_ascii, or not where it is looked for" >&2; exit 1; }
exec rustc --edition 2021 -C opt-level=3 -C codegen-units=1 -D warnings --check-cfg 'cfg(shifted, beside)' --crate-name bench \
    -L "$oracle" --extern osdp --extern judge -C link-arg="$library" -C link-arg="$readers" -C link-arg="$texts" "$@" -o "$binary" "$here/bench.rs"
