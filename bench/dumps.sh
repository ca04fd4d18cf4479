#!/usr/bin/env bash
# Makes heap dumps of real Java programs, each beside the class histogram of the same moment.
#
# usage: bench/dumps.sh [DIR [GROUP..]]
#
# Writes NAME.hprof and NAME.histogram into DIR (/tmp/heapmark-bench if it is not given). The groups, all of them but
# `newer` if none is given:
#   small      Filler with 5 MB, by each collector, live and all
#   medium     Filler with 100 MB, by G1, Serial, ZGC and Shenandoah, live and all
#   large      Filler with 600 MB, by G1, live
#   big        Filler with 300 MB, by ZGC and Shenandoah, live: these write objects in the order of their references
#   garbage    Filler with 500 MB, by G1, all: every sixth object or more is not reachable
#   tools      jshell, the virtual machine that it starts, and javac at work
#   scattered  2,000,000 nodes that refer to one another at random, and a map of them
#   random     the same with 4,000,000 nodes: 12,000,000 objects
#   list       one list of 1,000,000 nodes, which ends in a tree of as many, and one of 4,000,000 that ends in one node
#   map        one map of 4,000,000 entries
#   ids        6,000,000 instances with IDs at random, made by hostile.rs: 290 MB, without a histogram
#   odd        no compressed references, no class archive, a dump written at an OutOfMemoryError
#   refused    a dump compressed by the virtual machine, which heapmark refuses
#   newer      for a JDK of any version: Filler with 40 MB by each collector and mode that it has, live, all and, from
#              22 on, written by four threads; with compact object headers, and without compressed references; from 21
#              on, 3,000 parked virtual threads, also interpreted only. The names begin with the version, as in
#              j25-z-live
# Java is that of JAVA_HOME, else that of PATH; bench/debian_jdk.sh unpacks others. Files that exist are made again.
set -euo pipefail

top=$(cd "$(dirname "$0")/.." && pwd)
# shellcheck source=bench/machine.sh
. "$top/bench/machine.sh"
room=${1:-/tmp/heapmark-bench}
[ $# -eq 0 ] || shift
[ $# -gt 0 ] || set -- small medium large big garbage tools scattered random list map ids odd refused
for group; do
    case $group in
        small | medium | large | big | garbage | tools | scattered) ;;
        random | list | map | ids | odd | refused | newer) ;;
        *) wrong_words "no such group: $group" ;;
    esac
done

# moment PID NAME [-all]: makes a histogram and a dump by one request to the virtual machine, so that little happens
# between the two. Without -all, garbage is collected twice before, since objects that wait to be finalized or cleaned
# outlive the first collection.
moment() {
    if [ $# -eq 2 ]; then
        "${java}jcmd" "$1" GC.run > "$room/$2.histogram"
        sleep 0.5
    fi
    rm -f "$room/$2.hprof"
    printf 'GC.class_histogram %s\nGC.heap_dump %s %s\n' "${3:-}" "${3:-}" "$room/$2.hprof" > "$room/request"
    "${java}jcmd" "$1" -f "$room/request" > "$room/$2.histogram"
    ls -l "$room/$2.hprof"
}

# filler MEGABYTES NAME OPTION..: dumps Filler. The dump of all objects comes first, since that of the live objects
# collects the garbage.
filler() {
    local megabytes=$1 name=$2
    shift 2
    started "${java}java" -cp "$room/classes" "-Xmx$((megabytes * 2 + 64))m" "$@" Filler "$megabytes"
    [ "$megabytes" -gt 200 ] || moment "$PROGRAM_PID" "$name-all" -all
    moment "$PROGRAM_PID" "$name-live"
    ended
}

small() {
    filler 5 small-g1 -XX:+UseG1GC
    filler 5 small-serial -XX:+UseSerialGC
    filler 5 small-parallel -XX:+UseParallelGC
    filler 5 small-z -XX:+UseZGC
    filler 5 small-shenandoah -XX:+UseShenandoahGC
}

medium() {
    filler 100 medium-g1 -XX:+UseG1GC
    filler 100 medium-serial -XX:+UseSerialGC
    filler 100 medium-z -XX:+UseZGC
    filler 100 medium-shenandoah -XX:+UseShenandoahGC
}

large() {
    filler 600 large-g1 -XX:+UseG1GC
}

big() {
    filler 300 big-z -XX:+UseZGC
    filler 300 big-shenandoah -XX:+UseShenandoahGC
}

garbage() {
    started "${java}java" -cp "$room/classes" -Xmx1064m -XX:+UseG1GC Filler 500
    moment "$PROGRAM_PID" garbage-g1-all -all
    ended
}

# shaped NAME WORD..: starts the Java program WORD.. with G1, and makes the histogram and the dump NAME of it.
shaped() {
    local name=$1
    shift
    started "${java}java" -cp "$room/classes" -Xmx2g -XX:+UseG1GC "$@"
    moment "$PROGRAM_PID" "$name"
    ended
}

# scattered_nodes NAME NODES: dumps Scattered. The young generation has room for all entries of the map, since a
# collection while they are made would put them in the order of the map's table.
scattered_nodes() {
    shaped "$1" -Xms2g -Xmn1g Scattered "$2"
}

scattered() {
    scattered_nodes scattered-g1-live 2000000
}

random() {
    scattered_nodes random-g1-live 4000000
}

list() {
    shaped list-g1-live LongList 1000000 1000000
    shaped long-list-g1-live LongList 4000000 1
}

map() {
    shaped map-g1-live LargeMap 4000000
}

# accepts OPTION..: tests whether the virtual machine takes these options without a word.
accepts() {
    local told
    told=$("${java}java" "$@" -version 2>&1) && ! grep -q warning <<< "$told"
}

# each_way NAME WORD..: starts the Java program WORD.. and dumps all objects, the live ones, and from Java 22 on the
# live ones by four threads.
each_way() {
    local name
    name=j$(version)-$1
    shift
    started "${java}java" -cp "$room/classes" -Xmx700m "$@"
    moment "$PROGRAM_PID" "$name-all" -all
    moment "$PROGRAM_PID" "$name-live"
    if [ "$(version)" -ge 22 ]; then
        rm -f "$room/$name-parallel.hprof"
        "${java}jcmd" "$PROGRAM_PID" GC.heap_dump -parallel=4 "$room/$name-parallel.hprof" > "$room/request"
        ls -l "$room/$name-parallel.hprof"
    fi
    ended
}

# if_accepted NAME OPTION..: dumps Filler in each way, if the virtual machine takes the options.
if_accepted() {
    local name=$1
    shift
    if accepts "$@"; then each_way "$name" "$@" Filler 40; fi
}

# parked NAME OPTION..: dumps parked virtual threads.
parked() {
    local name=$1
    shift
    [ "$(version)" -ge 21 ] || return 0
    "${java}javac" -encoding UTF-8 -d "$room/classes" "$top/bench/java/newer/Virtual.java"
    each_way "$name" "$@" Virtual 3000
}

newer() {
    if_accepted g1 -XX:+UseG1GC
    if_accepted serial -XX:+UseSerialGC
    if_accepted parallel-gc -XX:+UseParallelGC
    if_accepted z -XX:+UseZGC
    if_accepted generational-z -XX:+UseZGC -XX:+ZGenerational
    if_accepted shenandoah -XX:+UseShenandoahGC
    if_accepted generational-shenandoah -XX:+UseShenandoahGC -XX:ShenandoahGCMode=generational
    if_accepted compact -XX:+UseCompactObjectHeaders
    if_accepted uncompressed -XX:-UseCompressedOops
    parked virtual
    parked virtual-interpreted -Xint
}

# No machine writes such a dump, so there is no histogram of it.
ids() {
    rustc --edition 2024 -O -o "$room/hostile" "$top/bench/hostile.rs"
    "$room/hostile" random_ids 6000000 > "$room/random-ids.hprof"
    ls -l "$room/random-ids.hprof"
}

odd() {
    filler 5 odd-uncompressed -XX:-UseCompressedOops
    filler 5 odd-unshared -Xshare:off
    rm -f "$room/odd-out-of-memory.hprof"
    "${java}java" -cp "$room/classes" -Xmx20m -XX:+HeapDumpOnOutOfMemoryError \
        "-XX:HeapDumpPath=$room/odd-out-of-memory.hprof" Filler 100 < /dev/null > /dev/null 2>&1 || true
    ls -l "$room/odd-out-of-memory.hprof"
}

refused() {
    rm -f "$room/refused-compressed.hprof"
    started "${java}java" -cp "$room/classes" Filler 1
    "${java}jcmd" "$PROGRAM_PID" GC.heap_dump -gz=1 "$room/refused-compressed.hprof" > /dev/null
    ended
    ls -l "$room/refused-compressed.hprof"
}

# The shell's own machine holds the compiler; the one that it starts runs what is typed.
jshell_and_agent() {
    begun "${java}jshell" "-J-Djava.util.prefs.userRoot=$room" -s -
    told 'System.out.println("ready")'
    moment "$PROGRAM_PID" tools-jshell-live
    moment "$(pgrep -P "$PROGRAM_PID")" tools-jshell-agent-live
    ended
}

# spent PID: the seconds of processor time that a process has spent.
spent() {
    awk -v ticks="$(getconf CLK_TCK)" '{ print int(($14 + $15) / ticks) }' "/proc/$1/stat"
}

# Makes copies of Filler, each in its own package, and dumps javac while it compiles them: javac works on between
# histogram and dump. It is dumped after 20 s of processor time, not of wall time, since the machine may be busy.
javac_at_work() {
    local number compiler
    for number in $(seq 1500); do
        mkdir -p "$room/sources/p$number"
        { echo "package p$number;"; cat "$top/bench/java/Filler.java"; } > "$room/sources/p$number/Filler.java"
    done
    "${java}javac" -J-Xmx1g -d "$room/compiled" "$room"/sources/*/Filler.java &
    compiler=$!
    while [ -n "$(jobs -pr)" ] && [ "$(spent "$compiler")" -lt 20 ]; do sleep 0.1; done
    moment "$compiler" tools-javac-all -all
    moment "$compiler" tools-javac-live
    wait "$compiler"
    rm -r "$room/sources" "$room/compiled"
}

tools() {
    jshell_and_agent
    javac_at_work
}

mkdir -p "$room"
"${java}javac" -d "$room/classes" "$top"/bench/java/*.java
for group; do "$group"; done
