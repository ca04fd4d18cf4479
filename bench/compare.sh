#!/usr/bin/env bash
# Compares a live dump with the class histogram that the virtual machine printed at the same moment.
#
# usage: bench/compare.sh DUMP HISTOGRAM COMMAND..
#
# COMMAND..: prints the report, such as crates/heapmark/out/heapmark. It is run with DUMP as its last argument. To count
# all objects of the dump, the plain marker is run: what the variable PLAIN names, else it is built.
#
# For each class whose counts differ, prints the number of its objects in the histogram, in the dump and in the report.
# After these lines come the totals, the number of classes with equal counts, and the report's last line. The report
# counts class objects in the row `<class>`, the histogram as instances of java.lang.Class. Exit status 1 if a marker
# prints no report, or HISTOGRAM has no class.
set -euo pipefail

top=$(cd "$(dirname "$0")/.." && pwd)
# shellcheck source=bench/usage.sh
. "$top/bench/usage.sh"
# shellcheck source=bench/markers.sh
. "$top/bench/markers.sh"
require_files "$1" "$2"
dump=$1 histogram=$2
shift 2
room=$(mktemp -d)
trap 'rm -rf "$room"' EXIT

plain=${PLAIN:-$room/plain}
[ -n "${PLAIN:-}" ] || rustc --edition 2024 -O -o "$plain" "$top/bench/plain/main.rs"

# of_histogram and of_report: print lines "COUNT NAME". Classes have the names of the report, with `/` for dots and
# `\x..` for letters beyond ASCII. Primitive arrays and class objects have those of the histogram: `[B`,
# `java/lang/Class`.
of_histogram() {
    LC_ALL=C awk '
        BEGIN { for (code = 128; code < 256; code++) escaped[sprintf("%c", code)] = sprintf("\\x%02x", code) }
        function spelled(name,  at, text) {
            for (at = 1; at <= length(name); at++) {
                text = text (substr(name, at, 1) in escaped ? escaped[substr(name, at, 1)] : substr(name, at, 1))
            }
            return text
        }
        $1 ~ /^[0-9]+:$/ { name = $4; sub(/\/0x/, "+0x", name); gsub(/\./, "/", name); print $2, spelled(name) }
    ' "$1"
}

of_report() {
    awk 'BEGIN {
        split("boolean Z char C float F double D byte B short S int I long J", codes)
        for (at = 1; at <= 16; at += 2) code[codes[at] "[]"] = "[" codes[at + 1]
        code["<class>"] = "java/lang/Class"
    }
    $3 !~ /^\((reachable|unreachable|unresolved)\)$/ { print $1, $3 in code ? code[$3] : $3 }' "$1"
}

ran reporter "$@" "$dump"
require_report reporter
ran plain "$plain" "$dump" --count all
require_report plain
of_histogram "$histogram" > "$room/1"
[ -s "$room/1" ] || { echo "compare.sh: $histogram has no class" >&2; exit 1; }
of_report "$room/plain.report" > "$room/2"
of_report "$room/reporter.report" > "$room/3"

awk '
    { count[FILENAME, $2] += $1; total[FILENAME] += $1; names[$2] }
    function of(file, name) { return count[room "/" file, name] + 0 }
    END {
        printf "%10s %10s %10s  %s\n", "machine", "dump", "report", "class"
        for (name in names) {
            if (of(1, name) != of(2, name) || of(2, name) != of(3, name)) {
                printf "%10d %10d %10d  %s\n", of(1, name), of(2, name), of(3, name), name | "sort -k1,1nr -k4"
            } else same++
        }
        close("sort -k1,1nr -k4")
        printf "%10d %10d %10d  (all)\n", total[room "/1"], total[room "/2"], total[room "/3"]
        printf "%d classes have the same count in all three.\n", same
    }' room="$room" "$room/1" "$room/2" "$room/3"
tail -n 1 "$room/reporter.report"
