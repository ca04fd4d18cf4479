#!/usr/bin/env bash
# Times retained and the plain marker on dumps and labels that are made to be slow: twice the size is to take about
# twice the time and memory. Only of the kind nested_comb it takes four times as much.
#
# usage: bench/hostile_labels.sh [COUNT [KIND..]]
#
# COUNT: objects or labels of the smaller file of each kind (500000). Prints a Markdown table: for each kind the sizes
# of the larger dump and its labels, both programs' processor seconds (user and system) and MiB on the smaller and the
# larger, and whether their tables say the same, or both gave the same refusal. A run is stopped after five minutes, and
# then differs. Exit status 1 if a run differs. retained is the binary of crates/retained/out, or what the variable
# RETAINED names, with the words before the labels: RETAINED='./plain --labels'.
set -euo pipefail

top=$(cd "$(dirname "$0")/.." && pwd)
# shellcheck source=bench/usage.sh
. "$top/bench/usage.sh"
of_tables=yes
# shellcheck source=bench/markers.sh
. "$top/bench/markers.sh"
count=${1:-500000}
require_number COUNT "$count"
[ $# -eq 0 ] || shift
read -r -a retained <<< "${RETAINED:-$top/crates/retained/out/retained}"
room=$(mktemp -d)
trap 'rm -rf "$room"' EXIT

rustc --edition 2024 -O -o "$room/plain" "$top/bench/plain/main.rs"
rustc --edition 2024 -O -o "$room/same_tables" "$top/bench/same_tables.rs"
rustc --edition 2024 -O -o "$room/hostile" "$top/bench/hostile.rs"
kinds=$("$room/hostile" labels || true)
# shellcheck disable=SC2086 # a kind is one word
[ $# -gt 0 ] || set -- $kinds
require_kinds "$kinds" "$@"

# timed NAME PROGRAM [WORD..]: runs PROGRAM on the dump and the labels that were made last. Adds its processor seconds
# to `times`, and its peak of memory to `peaks`.
timed() {
    local name=$1 program=$2
    shift 2
    ran "$name" timeout 300 /usr/bin/time -q -f '%U %S %M' -o "$room/clock" \
        "$program" "$room/dump" "$@" "$room/labels"
    times+=("$(awk 'END { printf "%.2f", $1 + $2 }' "$room/clock")")
    peaks+=("$(awk 'END { printf "%.0f", $3 / 1024 }' "$room/clock")")
}

echo '| Kind | Bytes | of labels | retained, s | of twice as much | MiB | of twice as much |' \
    'plain, s | of twice as much | MiB | of twice as much | Answers |'
echo '|---|---|---|---|---|---|---|---|---|---|---|---|'
different=0
for kind; do
    times=() peaks=() same=same
    for number in "$count" $((2 * count)); do
        "$room/hostile" "$kind" "$number" > "$room/dump"
        "$room/hostile" labels "$kind" "$number" > "$room/labels"
        timed retained "${retained[@]}"
        timed plain "$room/plain" --labels
        same_table retained plain || same="DIFFERENT (retained: $(end_of retained), plain: $(end_of plain))"
    done
    [ "$same" = same ] || different=1
    echo "| $kind | $(stat -c %s "$room/dump") | $(stat -c %s "$room/labels")" \
        "| ${times[0]} | ${times[2]} | ${peaks[0]} | ${peaks[2]}" \
        "| ${times[1]} | ${times[3]} | ${peaks[1]} | ${peaks[3]} | $same |"
done
exit $different
