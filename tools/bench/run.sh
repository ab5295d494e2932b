#!/usr/bin/env bash
# Measures the C calls, the readers and the check of a text's bytes against the original Rust, and frames against a plain one:
#     run.sh [--docs] [--beside ARCHIVE] [SOURCES] | run.sh --selftest [SOURCES]
# SOURCES is as for tools/oracle/build.sh, which builds the original. Writes build/bench/PERFORMANCE.md and performance.svg, and with --docs
# copies both to docs/ if every target is met. With --beside another build of the library is measured in the same rounds. RUNS=NUMBER sets the
# number of runs (15). Exits with 1 if an answer or a byte is wrong, and then measures nothing, or if a target is missed. With --selftest tries
# whether that is so.
set -eu
here=$(cd "$(dirname "$0")" && pwd -P)
root=$(cd "$here/../.." && pwd -P)
[[ ${ALONE-} == "$root"/* ]] || exec "$root/tools/alone.py" "$0" "$@"
lib=$root/target/staticlib/libosdp.a
readers=$root/target/staticlib/libbench_read.a
texts=$root/target/staticlib/libtext.a
out=$root/build/bench
docs=
beside=
selftest=
while true; do
    case ${1-} in
    --docs) docs=1; shift ;;
    --beside) beside=${2?--beside takes an archive}; shift 2 ;;
    --selftest) selftest=1; shift ;;
    *) break ;;
    esac
done
BESIDE=$beside "$root/tools/arguments.py" RUNS BESIDE
for archive in "$lib" "$readers" "$texts"; do
    [ -f "$archive" ] || { echo "$0: $archive is not there: make bench builds it" >&2; exit 1; }
done
"$root/tools/oracle/build.sh" ${1:+"$1"}
[ -z "$selftest" ] || exec "$here/selftest.py" "$lib" "$readers" "$texts"
rm -rf "$out"
mkdir -p "$out/counts"

# The other build's symbols get new names, so that both can be linked.
other=()
if [ -n "$beside" ]; then
    nm --defined-only -g "$beside" | awk 'NF == 3 { print $3, "beside_" $3 }' >"$out/renamed"
    objcopy --redefine-syms="$out/renamed" "$beside" "$out/beside.a"
    other=(--cfg beside -C link-arg="$out/beside.a")
fi

# Two binaries, which differ only in the place of their code.
"$here/build.sh" "$out/bench-1" "$lib" "$readers" "$texts" "${other[@]}"
"$here/build.sh" "$out/bench-2" "$lib" "$readers" "$texts" "${other[@]}" --cfg shifted
for run in $(seq "${RUNS:-15}"); do
    for place in 1 2; do
        "$out/bench-$place" >"$out/place-$place-run-$run.tsv"
    done
done

# Instructions, which do not depend on the machine's load: one dump for each call of `measured`.
if command -v valgrind >/dev/null; then
    valgrind --tool=callgrind --callgrind-out-file="$out/counts/call" --toggle-collect=measured --dump-after=measured \
        "$out/bench-1" count >"$out/counts.tsv" 2>"$out/valgrind.log" || { cat "$out/valgrind.log" >&2; exit 1; }
else
    echo "$0: no valgrind here: instructions are not counted" >&2
fi
exec python3 "$here/report.py" "$out" ${docs:+"$root/docs"}
