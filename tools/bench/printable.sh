#!/usr/bin/env bash
# Proves the check of a text's bytes by itself, and writes its archive: printable.sh [ARCHIVE], by default target/staticlib/libtext.a
# The check is private to crates/text. So a copy of that crate and of what it depends on, with a crates.txt of its own, gets two calls more, and rt
# proves it there as a static library. The copy is outside the repository, in a temporary folder: in every folder of the repository, also in one that
# git ignores, rt ci refuses a second crates.txt, and files of Rattle that no listed crate has.
set -euo pipefail
here=$(cd "$(dirname "$0")" && pwd -P)
root=$(cd "$here/../.." && pwd -P)
[[ ${ALONE-} == "$root"/* ]] || exec "$root/tools/alone.py" "$0" "$@"
archive=$(realpath -m "${1:-$root/target/staticlib/libtext.a}")
copy=$(mktemp -d)
trap 'rm -rf "$copy"' EXIT
for crate in payload_util text; do
    mkdir -p "$copy/crates/$crate"
    for part in src specs proofs; do
        [ ! -d "$root/crates/$crate/$part" ] || cp -r "$root/crates/$crate/$part" "$copy/crates/$crate/"
    done
done
sed -nE 's/^payload_util:/&/p; s/^text:/text staticlib:/p' "$root/crates.txt" >"$copy/crates.txt"
cat >>"$copy/crates/text/src/lib.rt" <<'END'

#[unsafe(no_mangle)]
pub extern "C" fn bench_printable_text(s: &[u8]) -> i32 {
    match Text::validate_ascii(s) {
        Ok(()) => 1,
        Err(_) => 0,
    }
}

#[unsafe(no_mangle)]
pub extern "C" fn bench_printable_singly(s: &[u8]) -> i32 {
    if Text::printable_singly(s) { 1 } else { 0 }
}
END
(cd "$copy/crates/text" && rt lib)
mkdir -p "$(dirname "$archive")"
cp "$copy/crates/text/out/libtext.a" "$archive"
