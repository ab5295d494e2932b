#!/usr/bin/env bash
# Makes targets one after the other: check_all.sh TARGET..
# Stops at the first that fails; the last line says that all passed, and in how many seconds each.
set -u
passed=
for target in "$@"; do
    start=$SECONDS
    "${MAKE:-make}" --no-print-directory "$target" || { echo "check-all: $target failed; before it: ${passed:-none}"; exit 1; }
    passed+=${passed:+, }"$target $((SECONDS - start)) s"
done
echo "check-all: all passed: $passed"
