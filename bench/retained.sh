#!/usr/bin/env bash
# Measures retained beside heapmark with one worker and the plain marker, on the same dumps, in turn.
#
# usage: bench/retained.sh [RUNS [DUMP..]]
#
# RUNS: how often each program runs on each dump (5); the least processor time (user and system) and the least wall time
# of them count, and the largest peak of memory. DUMP..: those of /tmp/heapmark-bench if none is given. The labels are
# all fields, static fields and roots of the dump (`retained_check.py labels`). Prints a Markdown table of the programs,
# with processor time and peak divided by heapmark's, and one of the dumps, with what the plain marker's pass counts.
# Exit status 1 if a report or a table differs, or a run ends without either. heapmark and STARTER are as in
# bench/run.sh. retained is the binary of crates/retained/out, or what the variable RETAINED names, with the words
# before the labels: RETAINED='./plain --labels'.
runs=5
# shellcheck source=bench/head.sh
. "$(dirname "$0")/head.sh"
of_tables=yes
# shellcheck source=bench/markers.sh
. "$top/bench/markers.sh"
read -r -a retained <<< "${RETAINED:-$top/crates/retained/out/retained}"
for program in "$heapmark" "${retained[0]}"; do
    [ -x "$program" ] || { echo "retained.sh: $program is not built" >&2; exit 1; }
done
different=0
ways=(heapmark plain retained plain-labels)

rustc --edition 2024 -O -o "$room/plain" "$top/bench/plain/main.rs"
rustc --edition 2024 -O -o "$room/same_tables" "$top/bench/same_tables.rs"

command_of() {
    case $1 in
        heapmark) command=("$heapmark" "$2" --workers 1) ;;
        plain) command=("$room/plain" "$2" --references bytes) ;;
        retained) command=("${retained[0]}" "$2" "${retained[@]:1}" "$room/labels") ;;
        plain-labels) command=("$room/plain" "$2" --labels "$room/labels") ;;
    esac
}

# timed WAY DUMP: runs once. Adds "MICROSECONDS SECONDS KILOBYTES" to the times of WAY: wall and processor time, and the
# peak.
timed() {
    command_of "$1" "$2"
    # shellcheck disable=SC2086 # the starter may be several words
    ran "$1" $starter /usr/bin/time -q -f '%U %S %M' -o "$room/clock" "${command[@]}"
    awk -v spent="$spent" 'END { print spent, $1 + $2, $3 }' "$room/clock" >> "$room/$1.times"
}

# compare: tests whether the runs that were last said the same, and prints what differs.
compare() {
    alike plain heapmark || echo "reports DIFFER (heapmark: $(end_of heapmark), plain: $(end_of plain))"
    same_table plain-labels retained ||
        echo "tables DIFFER (retained: $(end_of retained), plain: $(end_of plain-labels))"
}

# row DUMP WAY: prints the times and the peak of WAY, and their ratios to heapmark's.
row() {
    awk -v dump="$1" -v way="$2" -v same="$3" '
        FNR == 1 { file++ }
        {
            if (!(file in wall) || $1 < wall[file]) wall[file] = $1
            if (!(file in used) || $2 < used[file]) used[file] = $2
            if ($3 > peak[file]) peak[file] = $3
        }
        END {
            printf "| %s | %s | %.2f | %.2f | %.0f | %.2f | %.2f | %s |\n", dump, way, used[2], wall[2] / 1e6,
                peak[2] / 1024, used[2] / (used[1] > 0 ? used[1] : 0.01), peak[2] / peak[1], same
        }' "$room/heapmark.times" "$room/$2.times"
}

# told NAME: prints the number that the plain marker reported last for NAME.
told() {
    sed -n "s/^$1 \([0-9][0-9]*\).*/\1/p" "$room/plain-labels.told"
}

processor=$(sed -n 's/^model name.*: //p' /proc/cpuinfo | head -n 1)
load=$(cut -d ' ' -f 1 /proc/loadavg)
echo "Measured on $(date -u +'%-d %B %Y') on $(nproc) processors ($processor), load $load," \
    "$(rustc --version | cut -d ' ' -f 1,2), the best of $runs runs."
printf '\n| Dump | Program | Processor, s | Wall, s | Peak, MiB | To heapmark: processor | peak | Answers |\n'
echo '|---|---|---|---|---|---|---|---|'
: > "$room/sizes"
for dump in "${dumps[@]}"; do
    name=$(basename "$dump" .hprof)
    rm -f "$room"/*.times
    "$top/bench/retained_check.py" labels "$dump" > "$room/labels"
    for _ in $(seq "$runs"); do
        for way in "${ways[@]}"; do timed "$way" "$dump"; done
    done
    same=$(compare)
    [ -z "$same" ] || different=1
    for way in "${ways[@]}"; do row "$name" "$way" "${same:-same}"; done
    labels=$(awk '$1 == "label" && $2 > most { most = $2 } END { print most + 1 }' "$room/labels")
    echo "| $name | $(told file) | $(told objects) | $labels | $(told sets) | $(told sweeps) | $(told visits) |" \
        >> "$room/sizes"
done
printf '\n| Dump | Bytes | Objects | Labels | Sets | Sweeps | Visits |\n|---|---|---|---|---|---|---|\n'
cat "$room/sizes"
exit $different
