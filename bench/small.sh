#!/usr/bin/env bash
# Makes the small dump of a JDK that tools/check reads, in bench/real, with its report and its class histogram.
#
# usage: bench/small.sh
#
# Writes jdkN.hprof.xz, jdkN.report and jdkN.histogram, where N is the version of Java: that of JAVA_HOME, else that of
# PATH (bench/debian_jdk.sh unpacks others). The report is the plain marker's, the histogram the virtual machine's own,
# printed right before the dump. bench/real/README.md says what is dumped, and how.
#
# PLAIN: a plain marker that was built; else it is built.
set -euo pipefail

top=$(cd "$(dirname "$0")/.." && pwd)
# shellcheck source=bench/machine.sh
. "$top/bench/machine.sh"
room=$(mktemp -d)
trap 'rm -rf "$room"' EXIT
real=$top/bench/real
name=jdk$(version)
plain=${PLAIN:-$room/plain}
program=Small sources=("$top/bench/java/Small.java")
[ "$(version)" -lt 21 ] || program=SmallVirtual sources+=("$top/bench/java/newer/SmallVirtual.java")
options=(-Xmx24m -Xint -Xshare:off)
case $name in
    jdk17) options+=(-XX:+UseG1GC) ;;
    jdk21) options+=(-XX:+UseZGC -XX:+ZGenerational) ;;
    *) options+=(-XX:+UseG1GC -XX:+UseCompactObjectHeaders) ;;
esac

# dumped: dumps the live objects of the program, with the histogram, by one request. The first histogram is forgotten:
# the virtual machine creates a few objects for it.
dumped() {
    printf 'GC.class_histogram\nGC.heap_dump %s\n' "$room/whole.hprof" > "$room/request"
    for _ in 1 2; do
        rm -f "$room/whole.hprof"
        "${java}jcmd" "$PROGRAM_PID" -f "$room/request" > "$room/$name.histogram"
    done
}

[ -n "${PLAIN:-}" ] || rustc --edition 2024 -O -o "$plain" "$top/bench/plain/main.rs"
"${java}javac" -encoding UTF-8 -g:none -d "$room/classes" "${sources[@]}"
started "${java}java" -cp "$room/classes" "${options[@]}" $program
dumped
ended
"$top/bench/used_names.py" "$room/whole.hprof" "$room/$name.hprof"
"$plain" "$room/whole.hprof" > "$room/whole.report" 2> "$room/told"
"$plain" "$room/$name.hprof" > "$room/$name.report" 2> "$room/told"
cmp "$room/whole.report" "$room/$name.report"
mkdir -p "$real"
xz -9ec "$room/$name.hprof" > "$real/$name.hprof.xz"
cp "$room/$name.report" "$real"
sed -n '/^ *num /,/^Total /p' "$room/$name.histogram" > "$real/$name.histogram"
ls -l "$room"/*.hprof "$real/$name".*
