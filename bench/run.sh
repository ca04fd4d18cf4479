#!/usr/bin/env bash
# Measures heapmark beside the plain marker on the same dumps, in turn, and tests whether both write the same bytes.
#
# usage: bench/run.sh [RUNS [DUMP..]]
#
# RUNS: how often each program runs on each dump (5); the best wall time of them counts, and the largest peak of memory.
# DUMP..: those of /tmp/heapmark-bench if none is given (bench/dumps.sh makes them). Prints Markdown tables: whole
# programs first, then the dumps, then the phases of the plain marker. heapmark is the binary that `rt run` in
# crates/heapmark made, or what the variable HEAPMARK names. The words of the variable STARTER start each run: on a busy
# machine STARTER='chrt -f 10', as root, keeps other work off the processors. The words of the variable OPTIONS go to
# heapmark, as in OPTIONS='--buffer 4096'. A dump that all refuse alike has no row. Exit status 1 if a report differs,
# or a run ends without a report and without a refusal.
runs=5
# shellcheck source=bench/head.sh
. "$(dirname "$0")/head.sh"
# shellcheck source=bench/markers.sh
. "$top/bench/markers.sh"
[ -x "$heapmark" ] || { echo "run.sh: $heapmark is not built" >&2; exit 1; }
different=0
read -r -a options <<< "${OPTIONS:-}"

rustc --edition 2024 -O -o "$room/plain" "$top/bench/plain/main.rs"

# The ways in which each program runs: a word for each, from which `command_of` makes the command.
ways() {
    if "$heapmark" --help > /dev/null 2>&1; then echo heapmark-1 heapmark-2 heapmark-4; else echo heapmark; fi
    echo plain plain-2 plain-4 plain-bytes plain-bytes-atomic plain-bytes-2 plain-bytes-4
}

command_of() {
    case $1 in
        heapmark) command=("$heapmark" "$2") ;;
        heapmark-*) command=("$heapmark" "$2" --workers "${1#heapmark-}" "${options[@]}") ;;
        plain) command=("$room/plain" "$2") ;;
        plain-bytes) command=("$room/plain" "$2" --references bytes) ;;
        plain-bytes-atomic) command=("$room/plain" "$2" --references bytes --atomic) ;;
        plain-bytes-*) command=("$room/plain" "$2" --references bytes --threads "${1#plain-bytes-}") ;;
        plain-*) command=("$room/plain" "$2" --threads "${1#plain-}") ;;
    esac
}

# timed WAY DUMP: runs once. Adds "MICROSECONDS KILOBYTES" to the times of WAY, and what the program wrote on standard
# error to the messages of WAY. Notes a run that does not end as the expected one.
timed() {
    command_of "$1" "$2"
    # shellcheck disable=SC2086 # the starter may be several words
    ran "$1" $starter /usr/bin/time -q -f %M -o "$room/peak" "${command[@]}"
    echo "$spent $(tail -n 1 "$room/peak")" >> "$room/$1.times"
    cat "$room/$1.told" >> "$room/$1.messages"
    alike expected "$1" || echo "with $(end_of "$1")" > "$room/$1.different"
}

# measure DUMP: runs the plain marker for what is expected, then all ways in turn, so that a busy moment hurts each of
# them alike.
measure() {
    local way
    rm -f "$room"/*.times "$room"/*.messages "$room"/*.different
    ran expected "$room/plain" "$1"
    for _ in $(seq "$runs"); do
        for way in $(ways); do timed "$way" "$1"; done
    done
}

# told WAY NAME: prints the least number that the runs of WAY reported for NAME.
told() {
    sed -n "s/^$2 \([0-9][0-9]*\).*/\1/p" "$room/$1.messages" | sort -n | head -n 1
}

# row DUMP WAY: prints time and memory of the whole program, and their ratios to those of the plain marker with one
# thread.
row() {
    local same=same
    [ ! -e "$room/$2.different" ] || same="DIFFERENT $(cat "$room/$2.different")"
    awk -v dump="$1" -v way="$2" -v bytes="$(told plain file)" -v objects="$(told plain objects)" -v same="$same" '
        FNR == 1 { file++ }
        { if (!(file in best) || $1 < best[file]) best[file] = $1; if ($2 > peak[file]) peak[file] = $2 }
        END {
            printf "| %s | %s | %.3f | %.0f | %.2f | %.0f | %.2f | %.2f | %s |\n", dump, way, best[2] / 1e6,
                bytes / best[2], objects / best[2], peak[2] / 1024, best[2] / best[1], peak[2] / peak[1], same
        }' "$room/plain.times" "$room/$2.times"
}

# phases DUMP: prints for each way of the plain marker the least time of each phase among its runs.
phases() {
    local way phase
    for way in plain plain-2 plain-4 plain-bytes plain-bytes-atomic plain-bytes-2 plain-bytes-4; do
        printf '| %s | %s |' "$1" "$way"
        for phase in read parse index link references mark report; do
            awk "{ printf \" %.0f |\", \$1 / 1e6 }" <<< "$(told "$way" "$phase took")"
        done
        echo
    done
}

# sizes DUMP BYTES OBJECTS REFERENCES: prints the sizes of DUMP, and the most memory that heapmark should take for them.
sizes() {
    echo "| $1 | $2 | $3 | $4 | $((($2 + 44 * $3 + 4 * $4) >> 20)) |"
}

processor=$(sed -n 's/^model name.*: //p' /proc/cpuinfo | head -n 1)
load=$(cut -d ' ' -f 1 /proc/loadavg)
echo "Measured on $(date -u +'%-d %B %Y') on $(nproc) processors ($processor), load $load," \
    "$(rustc --version | cut -d ' ' -f 1,2), the best of $runs runs."
printf '\n| Dump | Program | Wall, s | MB/s | Mobjects/s | Peak, MiB | To plain: wall | peak | Report |\n'
echo '|---|---|---|---|---|---|---|---|---|'
: > "$room/phases"
: > "$room/sizes"
for dump in "${dumps[@]}"; do
    name=$(basename "$dump" .hprof)
    measure "$dump"
    ! compgen -G "$room/*.different" > /dev/null || different=1
    [ "$(end_of expected)" = report ] || { echo "$name: plain: $(end_of expected)" >&2; continue; }
    for way in $(ways); do row "$name" "$way"; done
    phases "$name" >> "$room/phases"
    sizes "$name" "$(told plain file)" "$(told plain objects)" "$(told plain references)" >> "$room/sizes"
done
printf '\n| Dump | Bytes | Objects | References | Most memory wanted, MiB |\n|---|---|---|---|---|\n'
cat "$room/sizes"
printf '\n| Dump | Program, ms by phase | read | parse | index | link | references | mark | report |\n'
echo '|---|---|---|---|---|---|---|---|---|'
cat "$room/phases"
exit $different
