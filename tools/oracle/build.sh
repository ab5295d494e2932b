#!/usr/bin/env bash
# Builds the original Rust, unchanged, with rustc alone, and the driver over it: build.sh [SOURCES]
# SOURCES: a checkout of the original, or its folder src (default ../shared/docs/src next to the repository). A file that is compiled and is not
# that of sources.sha256 is an error, unless CHANGED is yes in the environment.
# Writes build/oracle/libosdp.rlib, libjudge.rlib and oracle, if they are not there or were made of other files.
set -euo pipefail
here=$(cd "$(dirname "$0")" && pwd -P)
root=$(cd "$here/../.." && pwd -P)
[[ ${ALONE-} == "$root"/* ]] || exec "$root/tools/alone.py" "$0" "$@"
from=${1:-$root/../shared/docs/src}
RUST=$from "$root/tools/arguments.py" RUST CHANGED
[ -d "$from/command" ] || from=$from/src
out=$root/build/oracle
rm -rf "$out/src"
mkdir -p "$out/src"
cp -r "$from/." "$out/src/"
# Stand-ins for what the carried text lacks: only data, no behaviour.
shims='lib.rs error.rs reply/mfg.rs'
cp "$here/shim/lib.rs" "$here/shim/error.rs" "$out/src/"
cp "$here/shim/reply_mfg.rs" "$out/src/reply/mfg.rs"
flags=(--edition 2021 -C opt-level=3 -C codegen-units=1)
osdp=("${flags[@]}" --cfg 'feature="alloc"' --check-cfg 'cfg(feature, values("alloc", "_docs"))' --check-cfg 'cfg(test)'
    --crate-name osdp --crate-type rlib)

# Every file that rustc reads has to be a stand-in or a file of sources.sha256.
cd "$out/src"
rustc "${osdp[@]}" --emit dep-info="$out/osdp.d" lib.rs
mapfile -t compiled < <(sed -n 's/:$//p' "$out/osdp.d")
sha256sum "${compiled[@]}" </dev/null >"$out/compiled.sha256"
others=
while read -r line; do
    [[ " $shims " == *" ${line:66} "* ]] || grep -qxF "$line" "$here/sources.sha256" || others+=" ${line:66}"
done <"$out/compiled.sha256"
if [ -n "$others" ]; then
    [ "${CHANGED-}" = yes ] || { echo "$0: in $from, not the files of sources.sha256:$others; CHANGED=yes goes on with them" >&2; exit 1; }
    echo "$0: note: in $from, not the files of sources.sha256:$others" >&2
fi

cd "$root/tools"
state=$(rustc --version --verbose; cat "$out/compiled.sha256"; sha256sum oracle/build.sh oracle/*.rs judge/*.rs kinds.txt reasons.txt)
[ -f "$out/libosdp.rlib" ] && [ -f "$out/libjudge.rlib" ] && [ -x "$out/oracle" ] && [ "$state" = "$(cat "$out/state" 2>/dev/null)" ] && exit 0
rm -f "$out/state"
rustc "${osdp[@]}" --out-dir "$out" "$out/src/lib.rs"
rustc "${flags[@]}" --crate-name judge --crate-type rlib --extern osdp="$out/libosdp.rlib" --out-dir "$out" judge/lib.rs
rustc "${flags[@]}" --crate-name oracle -L "$out" --extern osdp --extern judge -o "$out/oracle" oracle/driver.rs
echo "$state" >"$out/state"
