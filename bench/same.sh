#!/usr/bin/env bash
# Tests whether heapmark and the plain marker write the same bytes on real dumps, whatever the number of workers.
#
# usage: bench/same.sh DUMP..
#
# On each dump heapmark runs with 1, 2, 4 and 64 workers, and with two lists of fields that it skips: the referents of
# references, and the table of all hash maps with the value of each weak one. Prints a line for each dump: its
# megabytes, its objects, whether all reports are the plain marker's, and how the counts by class agree with
# NAME.histogram, if it is beside NAME.hprof. In a class that counts as different, the histogram and the dump differ,
# whatever is reachable; bench/compare.sh shows them. If both markers refuse a dump, the line has the refusal, which
# must be the same. A run that ends without a report and without a refusal counts as different. The last line is `N
# dumps, M runs, K different`. Exit status 1 if a run differs.
#
# heapmark is the binary of crates/heapmark/out, or what the variable HEAPMARK names.
set -euo pipefail

top=$(cd "$(dirname "$0")/.." && pwd)
# shellcheck source=bench/usage.sh
. "$top/bench/usage.sh"
# shellcheck source=bench/markers.sh
. "$top/bench/markers.sh"
require_files "$@"
heapmark=${HEAPMARK:-$top/crates/heapmark/out/heapmark}
room=$(mktemp -d)
trap 'rm -rf "$room"' EXIT
runs=0 different=0
referents=java/lang/ref/Reference.referent
# shellcheck disable=SC2016 # names of Java have dollars
tables='java/util/HashMap.table,java/util/WeakHashMap$Entry.value'

# same DUMP LIST WORKERS..: compares the reports on DUMP, in which the fields of LIST are skipped if it is not empty.
same() {
    local dump=$1 skip=()
    [ -z "$2" ] || skip=(--skip "$2")
    shift 2
    ran plain "$room/plain" "$dump" "${skip[@]}"
    for workers; do
        runs=$((runs + 1))
        ran heapmark "$heapmark" "$dump" --workers "$workers" "${skip[@]}"
        if ! alike plain heapmark; then
            different=$((different + 1))
            verdict="DIFFERENT with $workers workers ${skip[*]} (heapmark: $(end_of heapmark), plain: $(end_of plain))"
        fi
    done
}

# counted DUMP: prints how many classes have as many objects in the dump as in the histogram beside it, and how many
# have not.
counted() {
    local histogram=${1%.hprof}.histogram
    [ -s "$histogram" ] || return 0
    PLAIN=$room/plain "$top/bench/compare.sh" "$1" "$histogram" "$heapmark" > "$room/counts" 2> "$room/told" ||
        { printf ', not compared with its histogram: %s' "$(tail -n 1 "$room/told")"; return 1; }
    awk '
        / same count / { same = $1 }
        NF == 4 && $1 ~ /^[0-9]+$/ && $4 != "(all)" && $1 != $2 { differ++; names = names " " $4 }
        END { printf ", %d classes counted alike, %d not%s", same, differ, differ ? ":" names : "" }' "$room/counts"
}

rustc --edition 2024 -O -o "$room/plain" "$top/bench/plain/main.rs"
for dump; do
    verdict=same counts=
    same "$dump" '' 1 2 4 64
    objects=$(sed -n 's/^objects //p' "$room/plain.told")
    same "$dump" "$referents" 4
    same "$dump" "$tables" 4
    if [ "$verdict" = same ] && [ "$(end_of plain)" != report ]; then
        verdict="same, $(end_of plain)"
    elif [ "$verdict" = same ]; then
        counts=$(counted "$dump") || different=$((different + 1))
    fi
    printf '%s: %s MB, %s objects, %s%s\n' "$(basename "$dump" .hprof)" "$(($(stat -c %s "$dump") / 1000000))" \
        "${objects:-no}" "$verdict" "$counts"
done
echo "$# dumps, $runs runs, $different different"
[ "$different" -eq 0 ]
