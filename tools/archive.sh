#!/usr/bin/env bash
# Proves a static library and what it uses, and writes its archive: archive.sh CRATE ARCHIVE
set -euo pipefail
root=$(cd "$(dirname "$0")/.." && pwd -P)
[[ ${ALONE-} == "$root"/* ]] || exec "$root/tools/alone.py" "$0" "$@"
crate=$1 archive=$(realpath -m "$2")
cd "$root/crates/$crate"
rt lib
mkdir -p "$(dirname "$archive")"
cp "out/lib$crate.a" "$archive"
