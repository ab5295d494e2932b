#!/usr/bin/env bash
# Tries the comparison of the six C calls on wrong archives: run.sh [SOURCES]
# SOURCES is as for tools/oracle/build.sh, which builds the original. Everything goes to build/. README.md says what is tried.
set -euo pipefail
here=$(cd "$(dirname "$0")" && pwd -P)
root=$(cd "$here/../.." && pwd -P)
[[ ${ALONE-} == "$root"/* ]] || exec "$root/tools/alone.py" "$0" "$@"
RUST=${1-} "$root/tools/arguments.py" RUST
out=$root/build/mutants
"$root/tools/oracle/build.sh" ${1:+"$1"}
mkdir -p "$out"
build() {
    rustc --edition 2021 -C opt-level=3 -C codegen-units=1 -D warnings -L "$root/build/oracle" -L "$out" --extern judge "$@"
}
build --crate-name wrong --crate-type rlib -o "$out/libwrong.rlib" "$here/wrong.rs"
build --crate-name standin --crate-type cdylib --extern wrong -o "$out/libstandin.so" "$here/standin.rs"
build --crate-name mutants --extern wrong -o "$out/mutants" "$here/mutants.rs"
"$root/tools/compare/build.sh" "$out/libstandin.so" "$out/compare" -C link-arg=-Wl,-rpath,"$out"
exec "$out/mutants" "$out/compare"
