#!/usr/bin/env bash
# Compares what the tools say that objects take in the heap with the virtual machine's own histogram of the same moment.
#
# usage: bench/sizes.sh [DIR [MEGABYTES [PATTERN]]]
#
# Dumps bench/java/Filler.java with 40 MB by each collector and mode that Java has; without compressed references, or
# classes; with objects at multiples of 16 bytes; with compact object headers; from Java 21 on 3,000 parked virtual
# threads; and Filler with MEGABYTES (500) by G1, ZGC and Shenandoah. Filler wants Java 16. Then the programs of
# bench/java/sizes, by each collector, in Java 11 also by CMS: pools of threads with their jobs, large arrays among few
# small objects, classes with few objects, and classes whose superclasses have fields (up to Java 14 also with
# references first or together, without compact fields, or uncompressed).
# Then prints a table, as bench/size_figures.py says, and fails if a comparison does. Java is that of JAVA_HOME, else
# that of PATH; bench/debian_jdk.sh unpacks others: JAVA_HOME=$(bench/debian_jdk.sh 11 bullseye). Names of dumps of 32
# bits have `-32-bit`: JAVA_HOME=$(bench/debian_jdk.sh 17 bookworm i386) makes such ones.
#
# DIR (/tmp/heapmark-sizes) gets the dumps with their histograms; those that are there are not made again, and each dump
# NAME.hprof in DIR with a NAME.histogram is compared. PATTERN: only dumps whose names match it, such as '*-g1'.
# HEAP_SIZES_KEEP=no: a dump with MEGABYTES is removed once it was compared.
set -euo pipefail

top=$(cd "$(dirname "$0")/.." && pwd)
# shellcheck source=bench/machine.sh
. "$top/bench/machine.sh"
room=${1:-/tmp/heapmark-sizes} large=${2:-500} pattern=${3:-*}
require_number MEGABYTES "$large"
mkdir -p "$room/classes"
status=0

# bits: prints `-32-bit` if the virtual machine has 32 bits.
bits() {
    "${java}java" -XshowSettings:properties -version 2>&1 | sed -n 's/^ *sun.arch.data.model = 32$/-32-bit/p'
}

# accepts OPTION..: tests whether the virtual machine takes these options without a word.
accepts() {
    local said
    said=$("${java}java" "$@" -version 2>&1) && ! grep -q -i warning <<< "$said"
}

# dumped NAME OPTION.. PROGRAM NUMBER: starts a program, and makes a histogram and a dump of its live objects, so that
# little happens between the two. Garbage is collected twice before: what waits to be finalized outlives the first.
dumped() {
    local name=$room/$1
    shift
    [ ! -s "$name.hprof" ] || return 0
    started "${java}java" -cp "$room/classes" "$@"
    "${java}jcmd" "$PROGRAM_PID" GC.run > "$room/request"
    sleep 0.5
    "${java}jcmd" "$PROGRAM_PID" GC.class_histogram > "$room/request"
    printf 'GC.class_histogram\nGC.heap_dump %s\n' "$name.hprof" > "$room/request"
    "${java}jcmd" "$PROGRAM_PID" -f "$room/request" > "$name.histogram"
    ended
}

# compared NAME OPTION.. PROGRAM NUMBER: makes a dump, unless it is there, and prints its line.
compared() {
    # shellcheck disable=SC2053 # a pattern, not a text
    [[ $1 == $pattern ]] || return 0
    dumped "$@"
    "$top/bench/size_figures.py" "$room/$1.hprof" "$room/$1.histogram" || status=1
}

# filler NAME OPTION..: compares Filler with 40 MB, if the virtual machine takes the options.
filler() {
    local name=$jdk-$1
    shift
    [ "$number" -lt 16 ] || ! accepts "$@" || compared "$name" -Xmx700m "$@" Filler 40
}

# special NAME OPTION..: compares the programs of bench/java/sizes, if the virtual machine takes the options.
special() {
    local name=$1
    shift
    accepts "$@" || return 0
    compared "$jdk-pools-$name" -Xmx700m "$@" Pools 30
    compared "$jdk-arrays-$name" -Xmx900m "$@" LargeArrays 190
    compared "$jdk-few-$name" -Xmx500m "$@" -XX:-RestrictContended Few 10
    compared "$jdk-hierarchies-$name" -Xmx500m "$@" Hierarchies 10
}

# large NAME OPTION..: compares Filler with many megabytes.
large() {
    local name=$jdk-$1
    shift
    [ "$number" -lt 16 ] || ! accepts "$@" || compared "$name" "-Xmx$((large * 5 / 2))m" "$@" Filler "$large"
    [ "${HEAP_SIZES_KEEP:-yes}" = yes ] || rm -f "$room/$name.hprof"
}

number=$(version) jdk=j$(version)$(bits)
annotations=java.base/jdk.internal.vm.annotation=ALL-UNNAMED
"${java}javac" -encoding UTF-8 --add-exports "$annotations" -d "$room/classes" "$top"/bench/java/sizes/*.java
[ "$number" -lt 16 ] || "${java}javac" -encoding UTF-8 -d "$room/classes" "$top/bench/java/Filler.java"
echo '| Dump | Layout | Classes | In the dump | Omitted | With these | Off | Took |'
echo '|---|---|---|---|---|---|---|---|'
filler g1 -XX:+UseG1GC
filler serial -XX:+UseSerialGC
filler parallel -XX:+UseParallelGC
filler z -XX:+UseZGC
filler generational-z -XX:+UseZGC -XX:+ZGenerational
filler shenandoah -XX:+UseShenandoahGC
filler generational-shenandoah -XX:+UseShenandoahGC -XX:ShenandoahGCMode=generational
filler uncompressed -XX:-UseCompressedOops
filler uncompressed-classes -XX:-UseCompressedClassPointers
filler aligned-16 -XX:ObjectAlignmentInBytes=16
filler compact -XX:+UseCompactObjectHeaders
filler compact-z -XX:+UseCompactObjectHeaders -XX:+UseZGC
if [ "$number" -ge 21 ]; then
    "${java}javac" -encoding UTF-8 -d "$room/classes" "$top/bench/java/newer/Virtual.java"
    compared "$jdk-virtual" -Xmx700m Virtual 3000
fi
special g1 -XX:+UseG1GC
special serial -XX:+UseSerialGC
special parallel -XX:+UseParallelGC
[ "$number" -ge 14 ] || special cms -XX:-PrintWarnings -XX:+UseConcMarkSweepGC
special shenandoah -XX:+UseShenandoahGC
special z -XX:+UseZGC
if [ "$number" -lt 15 ]; then
    compared "$jdk-hierarchies-references-first" -Xmx500m -XX:FieldsAllocationStyle=0 Hierarchies 10
    compared "$jdk-hierarchies-references-together" -Xmx500m -XX:FieldsAllocationStyle=2 Hierarchies 10
    compared "$jdk-hierarchies-with-gaps" -Xmx500m -XX:-CompactFields Hierarchies 10
    compared "$jdk-hierarchies-first-with-gaps" -Xmx500m -XX:FieldsAllocationStyle=0 -XX:-CompactFields Hierarchies 10
    compared "$jdk-hierarchies-uncompressed" -Xmx500m -XX:-UseCompressedOops Hierarchies 10
fi
large large-g1 -XX:+UseG1GC
large large-z -XX:+UseZGC
large large-shenandoah -XX:+UseShenandoahGC
exit $status
