#!/usr/bin/env bash
# Builds and runs the comparison of the six C calls with the original Rust and the model of frames: run.sh [SOURCES [SEED]]
# SOURCES is as for tools/oracle/build.sh, which builds the original; if it is empty, the default is used. Everything goes to build/.
# Passes only if the comparison ends with status 0 and its last line says that it found nothing in at least 50,000,000 frames, and how often each
# difference of kinds.txt occurred: a library could end the process too.
set -euo pipefail
here=$(cd "$(dirname "$0")" && pwd -P)
root=$(cd "$here/../.." && pwd -P)
[[ ${ALONE-} == "$root"/* ]] || exec "$root/tools/alone.py" "$0" "$@"
RUST=${1-} SEED=${2-} "$root/tools/arguments.py" RUST SEED
lib=$root/target/staticlib/libosdp.a
out=$root/build/compare
[ -f "$lib" ] || { echo "$0: $lib is not there: make lib builds it" >&2; exit 1; }
"$root/tools/oracle/build.sh" ${1:+"$1"}
mkdir -p "$out"
"$here/build.sh" "$lib" "$out/compare"
timeout 1200 "$out/compare" ${2:+"$2"} | tee "$out/said" || { echo "$0: the comparison failed, or did not end within 20 minutes" >&2; exit 1; }
names=$(grep -cE '^[^#].*~' "$root/tools/kinds.txt") || true
named="(; [A-Z]+ address above [0-9A-F]{2}, which the original refuses to write: [1-9][0-9]* payloads){$names}"
frames='([5-9][0-9]{7}|[1-9][0-9]{8,}) frames'
tail -n 1 "$out/said" | grep -qE "^compare: [0-9]{9,} cases over [0-9]+ payloads and $frames, 0 differences, [^;]*$named$" ||
    { echo "$0: the comparison broke off" >&2; exit 1; }
