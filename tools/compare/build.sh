#!/usr/bin/env bash
# Links the comparison with a library that has the six calls: build.sh LIBRARY PROGRAM [RUSTC-FLAG..]
# tools/oracle/build.sh has to be run before.
set -eu
here=$(cd "$(dirname "$0")" && pwd -P)
lib=$1 program=$2
shift 2
gcc -std=c11 -O2 -Wall -Wextra -Wpedantic -Wconversion -Werror -I "$here/../../include" -c -o "$program.parts.o" "$here/parts.c"
rustc --edition 2021 -C opt-level=3 -C codegen-units=1 -D warnings --crate-name compare \
    -L "$here/../../build/oracle" --extern judge -C link-arg="$program.parts.o" -C link-arg="$lib" "$@" -o "$program" "$here/compare.rs"
