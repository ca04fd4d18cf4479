#!/usr/bin/env bash
# Measures how long heapmark reads, builds, marks and reports, by moments.c, which it preloads.
#
# usage: bench/phases.sh [RUNS [DUMP..]]
#
# RUNS: how often for each number of workers (3); the least of each phase counts. DUMP..: those of /tmp/heapmark-bench
# if none is given. Prints a Markdown table in milliseconds:
#
#   read     until the file's end was met
#   build    until the first worker's thread starts: parse, index, links, pool
#   mark     until the last worker's thread ends
#   report   until the program ends, with what the leader drains after the workers
#
# Marking is known by its threads: it is the last time that as many threads live at once as there are workers. Parsing,
# linking and reporting start fewer threads. A second table has the least, median and largest time of marking; the
# largest divided by the least; the median time with one worker divided by the row's median; and the processor time
# (user and system) of the whole program, the median of RUNS further runs without moments.c. Exit status 1 if a run
# gives no report. heapmark and STARTER are as in bench/run.sh. The words of the variable OPTIONS go to heapmark, as in
# OPTIONS='--buffer 64'.
runs=3
# shellcheck source=bench/head.sh
. "$(dirname "$0")/head.sh"
# shellcheck source=bench/markers.sh
. "$top/bench/markers.sh"

cc -O2 -shared -fPIC -o "$room/moments.so" "$top/bench/moments.c"

# timed WORKERS DUMP: one run; adds "READ BUILD MARK REPORT", in seconds, to what is kept.
timed() {
    # shellcheck disable=SC2086 # the starter and the options may be several words
    ran heapmark $starter env LD_PRELOAD="$room/moments.so" MOMENTS="$room/times" WORKERS="$1" \
        "$heapmark" "$2" --workers "$1" ${OPTIONS:-}
    require_report heapmark
}

# used WORKERS DUMP: one run by itself; adds its processor time, in seconds, to what is kept.
used() {
    # shellcheck disable=SC2086 # the starter and the options may be several words
    ran heapmark $starter /usr/bin/time -q -f '%U %S' -o "$room/clock" "$heapmark" "$2" --workers "$1" ${OPTIONS:-}
    require_report heapmark
    awk '{ print $1 + $2 }' "$room/clock" >> "$room/used"
}

# middle COLUMN FILE: prints the median of the numbers in COLUMN.
middle() {
    awk -v column="$1" '{ print $column }' "$2" | sort -g | awk '{ at[NR] = $1 } END { print at[int((NR + 1) / 2)] }'
}

# spread NAME WORKERS: adds a row to the second table.
spread() {
    [ "$2" -gt 1 ] || alone=$(middle 3 "$room/times")
    awk -v name="$1" -v workers="$2" -v middle="$(middle 3 "$room/times")" -v alone="$alone" \
        -v used="$(middle 1 "$room/used")" '
        NR == 1 || $3 < least { least = $3 }
        $3 > most { most = $3 }
        END {
            printf "| %s | %d | %.1f | %.1f | %.1f | %.2f | %.2f | %.2f |\n", name, workers, 1000 * least,
                1000 * middle, 1000 * most, most / least, alone / middle, used
        }' "$room/times" >> "$room/spread"
}

echo '| Dump | Workers | read | build | mark | report |'
echo '|---|---|---|---|---|---|'
for dump in "${dumps[@]}"; do
    name=$(basename "$dump" .hprof)
    for workers in 1 2 4; do
        rm -f "$room/times" "$room/used"
        for _ in $(seq "$runs"); do
            timed "$workers" "$dump"
            used "$workers" "$dump"
        done
        awk -v name="$name" -v workers="$workers" '
            { for (at = 1; at <= 4; at++) if (NR == 1 || $at < best[at]) best[at] = $at }
            END {
                printf "| %s | %d |", name, workers
                for (at = 1; at <= 4; at++) printf " %.1f |", 1000 * best[at]
                print ""
            }' "$room/times"
        spread "$name" "$workers"
    done
done
printf '\n| Dump | Workers | mark: least | middle | largest | largest to least | 1 worker to it | processor, s |\n'
echo '|---|---|---|---|---|---|---|---|'
cat "$room/spread"
