#!/bin/sh
# Times the pool beside a stack of std: claims, and pops and pushes, on one and on four threads.
#
# usage: bench/pool.sh [RUNS [COMMAND WORD..]]
#
# Builds crates/pool_bench with rt and bench/std_baseline.rs with rustc, and runs the two in turn: RUNS times for claims
# (10 by default), four times as often for pops and pushes, which are shorter. Prints the best times of both, their
# ratio, and the ratio of the median times: above 1 the pool takes longer. A pop with its push counts as one. The
# command, if any, starts each run: on a busy machine 'nice -n -20', as root, keeps other work off the processors.
set -eu
top=$(cd "$(dirname "$0")/.." && pwd)
# shellcheck source=bench/usage.sh
. "$top/bench/usage.sh"
runs=${1:-10}
require_number RUNS "$runs"
test $# -eq 0 || shift
starter=$*
objects=16777216
passes=9
turns=500000
room=$(mktemp -d)
trap 'rm -rf "$room"' EXIT

(cd "$top/crates/pool_bench" && rt run -- 1 1 1 1 1) > "$room/build" 2>&1 || { cat "$room/build" >&2; exit 1; }
rustc -O -o "$room/std" "$top/bench/std_baseline.rs"
pool=$top/crates/pool_bench/out/pool_bench

# ended_badly PROGRAM: ends the script, after a run of PROGRAM that failed.
ended_badly() {
    echo "a run of $1 failed: $(tail -n 1 "$room/$1.times")" >&2
    exit 1
}

# both COUNT WORD..: runs both programs in turn, COUNT times. Tests that they did the same work, and keeps their times.
both() {
    count=$1
    shift
    : > "$room/pool.times"
    : > "$room/std.times"
    for _ in $(seq "$count"); do
        $starter "$pool" "$@" > "$room/pool.out" 2>> "$room/pool.times" || ended_badly pool
        $starter "$room/std" "$@" > "$room/std.out" 2>> "$room/std.times" || ended_badly std
        cmp -s "$room/pool.out" "$room/std.out" || { echo "the two did not do the same work: $*" >&2; exit 1; }
    done
}

# nth PROGRAM NAME K: prints the Kth least of the times that the runs of PROGRAM printed for NAME.
nth() {
    sed -n "s/^$2 took \([0-9]*\) ns\$/\1/p" "$room/$1.times" | sort -n | sed -n "$3p"
}

# row NAME THREADS COUNT POOL STD POOL STD: prints a row for COUNT steps. The first POOL and STD are the best times, the
# second are the median times.
row() {
    awk -v name="$1" -v threads="$2" -v count="$3" -v pool="$4" -v std="$5" -v pool2="$6" -v std2="$7" 'BEGIN {
        printf "| %s | %d | %.1f | %.1f | ", name, threads, pool / count, std / count
        printf "%.1f | %.1f | ", 1000 * count / pool, 1000 * count / std
        printf "%.2f | %.2f |\n", pool / std, pool2 / std2
    }'
}

# claims NAME THREADS ROW: times claims of white objects, in one pass, and of marked objects, in the passes after the
# first.
claims() {
    both "$runs" "$2" "$objects" "$3" 1 0
    pool1=$(nth pool claims 1) std1=$(nth std claims 1) pool2=$(nth pool claims $middle) std2=$(nth std claims $middle)
    row "$1 of a white object" "$2" "$objects" "$pool1" "$std1" "$pool2" "$std2"
    both "$runs" "$2" "$objects" "$3" "$passes" 0
    row "$1 of a marked object" "$2" $(((passes - 1) * objects)) \
        $(($(nth pool claims 1) - pool1)) $(($(nth std claims 1) - std1)) \
        $(($(nth pool claims $middle) - pool2)) $(($(nth std claims $middle) - std2))
}

echo '| Work | Threads | ns, pool | ns, std | Millions a second, pool | std | Ratio of the best | of the middle ones |'
echo '|---|---|---|---|---|---|---|---|'
middle=$((runs / 2 + 1))
for threads in 1 4; do
    claims claim "$threads" $((objects / threads))
    [ "$threads" -eq 1 ] || claims 'claim among neighbours' "$threads" 1
    both $((4 * runs)) "$threads" 0 1 0 "$turns"
    pool1=$(nth pool 'pops and pushes' 1) pool2=$(nth pool 'pops and pushes' $((2 * runs)))
    for name in 'pops and pushes' 'pops and pushes of vectors'; do
        std1=$(nth std "$name" 1) std2=$(nth std "$name" $((2 * runs)))
        row "$name" "$threads" $((threads * turns)) "$pool1" "$std1" "$pool2" "$std2"
    done
done
