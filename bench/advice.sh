#!/usr/bin/env bash
# Tries the recipe "Which classes grew", tools/grown, tools/holders and tools/held on programs that leak. Takes two
# dumps of each program, and tests whether the recipe and tools/grown print the class that leaks, and whether the first
# line of tools/holders is what holds it. bench/leaks.sh tries tools/leaks.
#
# usage: bench/advice.sh
#
# The programs are those of bench/java whose names end in Leak. tools/holders is tried with the class that leaks and
# without a class. Some cases differ:
#
# - No class of ThreadLocalLeak grows: tools/held has to find what the values of thread locals keep.
# - What ClassValueLeak keeps is in no row: tools/grown has to say that more is unreachable.
# - Between two runs of one program no class of it grows, though its lambdas have other names.
# - If a dump is cut, the recipe has to end with a status other than 0 and to print nothing.
#
# heapmark is the binary of crates/heapmark/out, or what the variable HEAPMARK names.
set -euo pipefail

top=$(cd "$(dirname "$0")/.." && pwd)
# shellcheck source=bench/machine.sh
. "$top/bench/machine.sh"
heapmark=${HEAPMARK:-$top/crates/heapmark/out/heapmark}
room=$(mktemp -d)
trap 'rm -rf "$room"' EXIT
failed=0

# recipe: prints the first indented lines of the section "Which classes grew" of whichever page has it.
recipe() {
    awk '/^##+ Which classes grew/ { found = 1 }
        found && /^    / { begun = 1; print substr($0, 5); next }
        begun { exit }' "$top"/docs/*.md
}

# pasted: runs the recipe in the folder of the dumps, in a shell that finds heapmark by PATH.
pasted() {
    (cd "$room" && PATH=$room/bin:$PATH bash recipe)
}

# dumped NAME: dumps the live objects of the program that was started.
dumped() {
    rm -f "$room/$1"
    "${java}jcmd" "$PROGRAM_PID" GC.heap_dump "$room/$1" > "$room/told"
}

# dumped_twice PROGRAM: takes two dumps of PROGRAM, between which it leaks.
dumped_twice() {
    started "${java}java" -cp "$room/classes" -Xmx60m "$1"
    dumped monday.hprof
    told 'once more'
    dumped friday.hprof
    ended
}

# judge NAME STATUS: prints whether STATUS is 0, and the lines if it is not.
judge() {
    if [ "$2" = 0 ]; then
        echo "ok: $1"
    else
        echo "FAILED: $1:"
        cat "$room/lines"
        failed=1
    fi
}

# among NAME CLASS: tests whether CLASS is among the lines.
among() {
    local place
    place=$(awk -v class="$2" '$3 == class { print NR }' "$room/lines")
    judge "$1: line ${place:-none} of $(wc -l < "$room/lines") is $2" "$([ -n "$place" ]; echo $?)"
}

# grown: runs tools/grown on the two dumps. Keeps its lines and what it says. Ends the script if it fails.
grown() {
    HEAPMARK=$heapmark "$top/tools/grown" "$room/monday.hprof" "$room/friday.hprof" > "$room/lines" 2> "$room/told" ||
        { echo "FAILED: $(cat "$room/told")"; exit 1; }
}

# hanging PROGRAM FIELD CLASS: tests whether CLASS is among what FIELD holds in the second dump.
hanging() {
    HEAPMARK=$heapmark "$top/tools/held" "$room/friday.hprof" "$2" > "$room/lines" || true
    among "$1, by $2" "$3"
}

# holding PROGRAM HOLDER [CLASS]: tests whether the first line of tools/holders on the second dump names HOLDER.
holding() {
    local program=$1 holder=$2 first
    shift 2
    HEAPMARK=$heapmark "$top/tools/holders" "$room/friday.hprof" "$@" > "$room/lines" 2> "$room/told" || true
    first=$(sed -n '1s/^ *[0-9]* *[0-9]* *[0-9]*% *[0-9]*  //p' "$room/lines")
    cat "$room/told" >> "$room/lines"
    judge "$program${1:+, $1}: the first holder is $holder" "$([ "$first" = "$holder" ]; echo $?)"
}

# leaking PROGRAM CLASS HOLDER: tests whether PROGRAM is seen to leak CLASS, which the field HOLDER holds.
leaking() {
    dumped_twice "$1"
    pasted > "$room/lines" || true
    among "$1, by the recipe" "$2"
    grown
    among "$1, by tools/grown" "$2"
    holding "$1" "$3" "$2"
    holding "$1" "$3"
}

# leaking_by_thread PROGRAM CLASS: tests whether no class of PROGRAM grows, and whether its thread locals keep CLASS.
leaking_by_thread() {
    dumped_twice "$1"
    pasted > "$room/lines"
    judge "$1: no class of its own grew" "$(! grep -q "  $1" "$room/lines"; echo $?)"
    # shellcheck disable=SC2016 # names of Java have dollars
    hanging "$1" 'java/lang/ThreadLocal$ThreadLocalMap$Entry.value' "$2"
}

# leaking_by_class PROGRAM COUNT: tests whether at least COUNT objects more are unreachable in the second dump.
leaking_by_class() {
    local objects
    dumped_twice "$1"
    grown
    objects=$(sed -n 's/^grown: \([0-9,]*\) objects more.* unreachable: .*/\1/p' "$room/told" | tr -d ,)
    cat "$room/told" >> "$room/lines"
    judge "$1: ${objects:-no} objects more are unreachable" "$([ "${objects:-0}" -ge "$2" ]; echo $?)"
    judge "$1: no class of its own grew" "$(! grep -q "  $1" "$room/lines"; echo $?)"
}

# run_twice PROGRAM: tests whether no class of PROGRAM grows between two runs that differ only in the names of lambdas.
run_twice() {
    local dump
    for dump in monday friday; do
        started "${java}java" -cp "$room/classes" -Xmx60m "$1"
        dumped $dump.hprof
        ended
    done
    pasted > "$room/lines"
    judge "$1, two runs: nothing of its own grew" "$(! grep -q "  $1" "$room/lines"; echo $?)"
    grown
    judge "$1, two runs: so says tools/grown" "$(! grep -q "  $1" "$room/lines"; echo $?)"
}

# cut_short NAME: cuts off the end of dump NAME, and tests whether the recipe then fails and prints nothing.
cut_short() {
    truncate -s -1000 "$room/$1"
    if pasted > "$room/lines" 2> "$room/told" || [ -s "$room/lines" ]; then
        echo "FAILED: $1 is cut, and the recipe printed $(wc -l < "$room/lines") lines"
        failed=1
    else
        echo "ok: $1 is cut: $(head -n 1 "$room/told")"
    fi
}

mkdir "$room/bin"
ln -s "$(realpath "$heapmark")" "$room/bin/heapmark"
recipe > "$room/recipe"
"${java}javac" -d "$room/classes" "$top"/bench/java/*Leak.java
# shellcheck disable=SC2016 # names of Java have dollars
while read -r program class holder; do
    leaking "$program" "$class" "$holder"
done << 'PROGRAMS'
CacheLeak CacheLeak$Order static CacheLeak.CACHE
ListenerLeak ListenerLeak$View static ListenerLeak.PRICES
LoaderLeak LoaderLeak$PluginLoader static LoaderLeak.STARTED
BusLeak BusLeak$$Lambda static BusLeak.CONFIG
SessionLeak SessionLeak$Session static SessionLeak$Sessions.BY_KEY
QueueLeak QueueLeak$Letter QueueLeak$Mailer.waiting
RedeployLeak RedeployLeak$ApplicationLoader static java/lang/ApplicationShutdownHooks.hooks
TwoStaticsLeak TwoStaticsLeak$Event together static TwoStaticsLeak$Journal.EVENTS, static TwoStaticsLeak$Screen.SHOWN
PROGRAMS
# shellcheck disable=SC2016
leaking_by_thread ThreadLocalLeak 'ThreadLocalLeak$Scratch'
# shellcheck disable=SC2016
holding ThreadLocalLeak 'ThreadLocalLeak$Scratch.notes' java.lang.String
leaking_by_class ClassValueLeak 10000
run_twice ListenerLeak
cut_short friday.hprof
cut_short monday.hprof
exit $failed
