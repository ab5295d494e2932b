#!/usr/bin/env bash
# Proves a program and what it uses, builds it, and holds what it says of its stored input to the stored output: program.sh NAME
# The program is crates/NAME/out/NAME; its input is crates/NAME/stdin, its output crates/NAME/stdout.
set -euo pipefail
root=$(cd "$(dirname "$0")/.." && pwd -P)
[[ ${ALONE-} == "$root"/* ]] || exec "$root/tools/alone.py" "$0" "$@"
name=$1
said=$root/build/$name.said
mkdir -p "$root/build"
cd "$root/crates/$name"
rt run <stdin >"$said"
cmp "$said" stdout || { echo "$0: of crates/$name/stdin $name says something else than crates/$name/stdout" >&2; exit 1; }
