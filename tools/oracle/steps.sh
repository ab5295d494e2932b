# What compare.sh and vectors.sh share; they source it.
here=$(cd "$(dirname "${BASH_SOURCE[0]}")" && pwd -P)
root=$(cd "$here/../.." && pwd -P)
out=$root/build/oracle
[[ ${ALONE-} == "$root"/* ]] || exec "$root/tools/alone.py" "$0" "$@"

fail() {
    echo "$0: $*" >&2
    exit 1
}

# Holds the oracle to the examples of a file. How many there are is counted here as well.
held_to() {
    local stated said
    stated=$(grep -cE '^[^#]' "$1") || fail "no examples in $1"
    said=$("$out/oracle" examples <"$1") || fail "the oracle does not answer the examples of $1 as stated"
    [ "$said" = "$stated examples as stated" ] || fail "$stated examples in $1, and the oracle said: $said"
    echo "$(basename "$1"): $said"
}

# Builds the oracle over SOURCES, and holds it to the examples and to the answers that frames.py and streams.py state.
ready() {
    local name
    "$here/build.sh" ${1:+"$1"}
    held_to "$here/examples.txt"
    for name in frames streams; do
        python3 "$here/$name.py" >"$out/$name.txt"
        held_to "$out/$name.txt"
    done
}

# How many differences kinds.txt has.
differences=$(grep -cE '^[^#].*~' "$root/tools/kinds.txt") || true

# Whether a file has the oracle's tally of so many cases, in one line, lines for so many differences, which occurred, and nothing else.
tallied() {
    local rows='[0-9]+: [0-9]+(, [0-9]+: [0-9]+)*'
    local steps="[0-9]+ read, [0-9]+ other, [0-9]+ more, damaged by row $rows"
    local tally="^$2 cases; by row, 0 for none: $rows(; row 18 for the first generation: [1-9][0-9]*)?(; steps of streams: $steps)?$"
    local named='^[A-Z]+ address above [0-9A-F]{2}, which the original refuses to write: [1-9][0-9]* normalised, [1-9][0-9]* written$'
    [ "$(grep -cE "$tally" "$1") $(grep -cE "$named" "$1") $(wc -l <"$1")" = "1 $3 $((1 + $3))" ]
}
