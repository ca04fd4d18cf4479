#!/usr/bin/env bash
# Measures how long VisualVM's heap library takes to open a dump and print a histogram by class, and how much memory.
#
# usage: bench/visualvm.sh [RUNS [DUMP..]]
#
# RUNS: how often each dump is opened (3); the best wall time counts, and the largest peak of memory. DUMP..: those of
# /tmp/heapmark-bench if none is given. Prints a Markdown table with a row for each dump and each word of the variable
# COUNTED, `all` and `reachable` if it is not set. `all` counts all objects of the dump, which is less work than
# heapmark's. `reachable` counts those that heapmark counts with `--skip java/lang/ref/Reference.referent`. Neither
# counts class objects. bench/java/visualvm/VisualVmHistogram.java says more. A run is stopped after ten minutes. Exit
# status 1 if a run failed.
#
# The time includes the start of the virtual machine. The peak includes the mapped pages of the dump and of the
# library's own files, and the machine's garbage. So it depends on the limit of the heap, the variable HEAP (3g).
# STARTER is as in bench/run.sh; Java is that of JAVA_HOME, else that of PATH.
#
# The variable JFLUID names the library's jar, which is in the Debian package `visualvm` and needs no other file of it:
#
#     apt-get download visualvm && dpkg-deb -x visualvm_*.deb visualvm
#     JFLUID=visualvm/usr/share/visualvm/visualvm/modules/org-graalvm-visualvm-lib-jfluid-heap.jar bench/visualvm.sh
#
# If it is not set, this is done here, and the package is kept in ~/.cache/heapmark-bench. Nothing is installed.
runs=3
# shellcheck source=bench/head.sh
. "$(dirname "$0")/head.sh"
java=${JAVA_HOME:+$JAVA_HOME/bin/}
heap=${HEAP:-3g} failed=0
read -r -a counted <<< "${COUNTED:-all reachable}"

# unpacked: sets `jar` and `version` to those of the package, and downloads the package if it was not kept.
unpacked() {
    local kept=${XDG_CACHE_HOME:-$HOME/.cache}/heapmark-bench packages
    packages=("$kept"/visualvm_*.deb)
    if [ ! -e "${packages[0]}" ]; then
        mkdir -p "$kept"
        (cd "$room" && apt-get -qq -o APT::Sandbox::User=root download visualvm && mv visualvm_*.deb "$kept") >&2
        packages=("$kept"/visualvm_*.deb)
    fi
    dpkg-deb -x "${packages[0]}" "$room/visualvm"
    jar=$room/visualvm/usr/share/visualvm/visualvm/modules/org-graalvm-visualvm-lib-jfluid-heap.jar
    version=$(dpkg-deb -f "${packages[0]}" Version)
}

# timed WAY DUMP: runs once. Adds "SECONDS KILOBYTES" to the times of WAY. The library keeps its results in a folder
# beside the dump, NAME.hwcache, and reads them the next time; if it cannot make the folder, its files go to
# java.io.tmpdir. No property moves that folder, so each run gets a new folder with a link to the dump.
timed() {
    rm -rf "$room/beside"
    mkdir "$room/beside"
    ln -s "$(realpath "$2")" "$room/beside/dump.hprof"
    # shellcheck disable=SC2086 # the starter may be several words
    $starter timeout 600 /usr/bin/time -q -f '%e %M' -o "$room/clock" \
        "${java}java" "-Xmx$heap" "-Djava.io.tmpdir=$room/beside" -cp "$jar:$room/classes" \
        VisualVmHistogram "$1" "$room/beside/dump.hprof" > "$room/$1.report" || return 1
    cat "$room/clock" >> "$room/$1.times"
}

# measure DUMP: all ways in turn, so that a busy moment hurts each of them alike. A way that failed is not tried again.
measure() {
    local way
    rm -f "$room"/*.times "$room"/*.failed
    for _ in $(seq "$runs"); do
        for way in "${counted[@]}"; do
            [ -e "$room/$way.failed" ] || timed "$way" "$1" || touch "$room/$way.failed"
        done
    done
}

# row NAME WAY: prints the row of WAY for the dump NAME.
row() {
    if [ -e "$room/$2.failed" ]; then
        echo "| $1 | $2 | failed | | |"
        return
    fi
    awk -v dump="$1" -v way="$2" -v objects="$(tail -n 1 "$room/$2.report" | awk '{ print $1 }')" '
        NR == 1 || $1 < best { best = $1 }
        $2 > peak { peak = $2 }
        END { printf "| %s | %s | %d | %.2f | %.0f |\n", dump, way, objects, best, peak / 1024 }' "$room/$2.times"
}

jar=${JFLUID:-} version=$jar
[ -n "$jar" ] || unpacked
"${java}javac" -cp "$jar" -d "$room/classes" "$top/bench/java/visualvm/VisualVmHistogram.java"
echo "VisualVM $version on Java $("${java}java" -version 2>&1 | sed -n '1s/.*"\(.*\)".*/\1/p') with -Xmx$heap," \
    "$(nproc) processors, load $(cut -d ' ' -f 1 /proc/loadavg), the best of $runs runs."
printf '\n| Dump | Counted | Objects | Wall, s | Peak, MiB |\n|---|---|---|---|---|\n'
for dump in "${dumps[@]}"; do
    measure "$dump"
    for way in "${counted[@]}"; do row "$(basename "$dump" .hprof)" "$way"; done
    ! compgen -G "$room/*.failed" > /dev/null || failed=1
done
exit $failed
