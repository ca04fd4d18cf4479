#!/usr/bin/env bash
# Times heapmark and the plain marker on dumps that are made to be slow: twice the size is to take about twice the time.
#
# usage: bench/hostile.sh [COUNT [KIND..]]
#
# COUNT: objects, classes or the like of the smaller file of each kind (500000). Prints a Markdown table: for each kind
# the size of the larger file, both programs' seconds on the smaller and the larger, and whether they gave the same
# report or the same refusal. A run is stopped after a minute, and then differs. Exit status 1 if a run differs.
# heapmark is the binary of crates/heapmark/out, or what the variable HEAPMARK names; the words of the variable OPTIONS
# go to it, as in OPTIONS='--workers 1'. Both programs read the kind `named_fields` with a list of 64 fields that are
# not followed, if heapmark has the option --skip.
set -euo pipefail

top=$(cd "$(dirname "$0")/.." && pwd)
# shellcheck source=bench/usage.sh
. "$top/bench/usage.sh"
# shellcheck source=bench/markers.sh
. "$top/bench/markers.sh"
count=${1:-500000}
require_number COUNT "$count"
[ $# -eq 0 ] || shift
heapmark=${HEAPMARK:-$top/crates/heapmark/out/heapmark}
room=$(mktemp -d)
trap 'rm -rf "$room"' EXIT

rustc --edition 2024 -O -o "$room/plain" "$top/bench/plain/main.rs"
rustc --edition 2024 -O -o "$room/hostile" "$top/bench/hostile.rs"
kinds=$("$room/hostile" || true)
# shellcheck disable=SC2086 # a kind is one word
[ $# -gt 0 ] || set -- $kinds
require_kinds "$kinds" "$@"

# timed NAME PROGRAM [OPTION..]: runs PROGRAM on the dump that was made last, and adds its seconds to `times`.
timed() {
    local name=$1 program=$2
    shift 2
    ran "$name" timeout 60 "$program" "$room/dump" "$@"
    times+=("$(awk -v spent="$spent" 'BEGIN { printf "%.2f", spent / 1e6 }')")
}

echo '| Kind | Bytes | heapmark, s | of twice as much | plain, s | of twice as much | Answers |'
echo '|---|---|---|---|---|---|---|'
different=0
for kind; do
    times=() same=same list=()
    if [ "$kind" = named_fields ] && [[ $("$heapmark" --help) == *--skip* ]]; then
        list=(--skip "$("$room/hostile" skip)")
    fi
    for number in "$count" $((2 * count)); do
        "$room/hostile" "$kind" "$number" > "$room/dump"
        # shellcheck disable=SC2086 # the options may be several words
        timed heapmark "$heapmark" ${OPTIONS:-} "${list[@]}"
        timed plain "$room/plain" "${list[@]}"
        alike heapmark plain || same="DIFFERENT (heapmark: $(end_of heapmark), plain: $(end_of plain))"
    done
    [ "$same" = same ] || different=1
    size=$(stat -c %s "$room/dump")
    echo "| $kind | $size | ${times[0]} | ${times[2]} | ${times[1]} | ${times[3]} | $same |"
done
exit $different
