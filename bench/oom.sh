#!/usr/bin/env bash
# Tests what tools/leaks shows of one dump, on programs that run out of memory and on healthy ones with a large cache.
#
# usage: bench/oom.sh [NAME..]
#
# NAME..: programs of the table below, or folders of bench/java/oom, whose programs are all meant; all if none is given.
# The folders:
#
#   full    programs that run out of memory beside a steady catalog; the virtual machine dumps their heap
#   steady  healthy programs that dump themselves, whose largest part is a cache with a bound
#
# Java is that of JAVA_HOME, else that of PATH. The collectors are spread over the programs: the first has G1, the next
# Serial, Parallel, Z, Shenandoah, G1 and so on; on Java 21 the first has Serial, on 25 Parallel. COLLECTOR: one of
# these names, for all programs. A program is left out if it needs another version of Java, or a library that
# /usr/share/java does not have; the row then says the Debian package.
#
# Prints a Markdown table: for each dump its name, with the version of Java and the collector, its megabytes, the
# seconds that tools/leaks took, how often it started heapmark, and its first line. An answer is right if
#
# - the field of its first line is the holder of the table below, and the catalog is not in it;
# - no step of that line's path is false: tools/held finds that at least as much hangs by what is above as by what is
#   below it, and no more by both than by the first alone;
# - the output names the thread that ran out of memory, and its first own method is one of the table;
# - of a healthy program, the output has no word of a leak or of growth.
#
# It is partly right if the output lacks the words of the table, which say which of many objects it is. After an answer
# that is not right comes the whole output. The last lines are the median of how often heapmark was started, and `N
# right, M wrong, K left out`, with `P partly` between if there are any. Exit status 1 if an answer was wrong or partly
# right, 2 if there is no such program.
#
# heapmark is the binary of crates/heapmark/out, or what the variable HEAPMARK names. LEAKS: a command in place of
# tools/leaks, HELD one in place of tools/held. KEPT: a folder in which the dumps stay. DUMPED: such a folder, whose
# dumps are searched again: Java is not run, and a program without dumps is left out.
set -euo pipefail

# shellcheck source=bench/judging.sh
. "$(dirname "$0")/judging.sh"
collectors=(G1 Serial Parallel Z Shenandoah)
# The megabytes of a heap, the seconds in which it has to be full (a slow machine took more than 60), and the status of
# what was killed then.
memory=48 limit=600 killed=137
asked=()

# programs: prints the table, as judging.sh says. The number of dumps is 1.
programs() {
    cat << 'PROGRAMS'
full/Chat 17 1
    full/Chat$Session.history
    says welcome-bot
    ran out chat-3 full/Chat
full/Import 17 1
    local full/Import.read | thread "import"
    ran out import full/Import
full/Report 17 1
    full/Report$Orders.byNumber
    ran out report-1 full/Report.render
full/Lane 17 1
    java/util/concurrent/ThreadPoolExecutor.workQueue
    ran out intake full/Lane
full/Tenants 17 1
    full/Tenants$Inbox.mails | full/Tenants$Tenant.inbox
    says tenant-317
    ran out smtp-1 full/Tenants
full/Letters 17 1
    full/Letters$Scratch.parts
    ran out formatter full/Letters
full/Tokens 17 1 libguava-java guava
    com/google/common/cache/LocalCache.segments | com/google/common/cache/LocalCache$LocalManualCache.localCache
        | full/Tokens$Login.tokens
    ran out login-2 com/google/common/ | full/Tokens
full/Documents 17 1 libjackson2-databind-java jackson-core,jackson-databind,jackson-annotations
    com/fasterxml/jackson/databind/node/ArrayNode._children | local com/fasterxml/jackson/databind/deser/std/*
        | thread "reader"
    ran out reader com/fasterxml/jackson/ | full/Documents
full/Peers 17 1 libnetty-java netty-common,netty-buffer,netty-transport,netty-resolver
    io/netty/channel/ChannelOutboundBuffer.unflushedEntry
    says peer-77
    ran out writer io/netty/ | full/Peers
full/Charts 17 1 libjfreechart-java jfreechart,jcommon
    org/jfree/data/xy/XYSeries.data
    says host-12
    ran out sampler org/jfree/data/ | full/Charts
full/Meters 17 1 libdropwizard-metrics-java,libslf4j-java metrics-core,slf4j-api
    com/codahale/metrics/MetricRegistry.metrics
    ran out http-4 com/codahale/metrics/ | full/Meters
full/Script 17 1 librhino-java js
    org/mozilla/javascript/NativeArray.dense
    ran out script org/mozilla/javascript/
full/Sessions 17 1 libclojure-java clojure
    clojure/lang/Atom.state
    says sessions
    ran out serving clojure/lang/ | full/Sessions
full/Eternal 17 1 libehcache-java ehcache,slf4j-api
    net/sf/ehcache/store/MemoryStore.map
    says tokens
    ran out cart-1 net/sf/ehcache/ | full/Eternal
full/Pool 17 1 libcommons-pool2-java commons-pool2
    org/apache/commons/pool2/impl/GenericObjectPool.allObjects
    ran out db-7 org/apache/commons/pool2/ | full/Pool
full/Calls 17 1 libokhttp-java okhttp,okio
    okhttp3/Dispatcher.readyAsyncCalls | okhttp3/OkHttpClient.dispatcher
    ran out sender okhttp3/ | okio/ | full/Calls
steady/Pages 17 1
    static steady/Pages.RECENT
steady/Prices 17 1
    steady/Prices$Table.columns
steady/Rates 17 1 libguava-java guava
    com/google/common/cache/LocalCache.segments | com/google/common/cache/LocalCache$LocalManualCache.localCache
        | steady/Rates.rates
steady/Users 17 1 libcaffeine-java caffeine
    com/github/benmanes/caffeine/cache/BoundedLocalCache.data
        | com/github/benmanes/caffeine/cache/BoundedLocalCache$BoundedLocalManualCache.cache
        | static steady/Users.USERS
steady/Goods 17 1 libehcache-java ehcache,slf4j-api
    net/sf/ehcache/store/MemoryStore.map
    says goods
steady/Texts 17 1 libcommons-collections4-java commons-collections4
    org/apache/commons/collections4/map/AbstractHashedMap.data | steady/Texts.texts
PROGRAMS
}

# collector NUMBER: prints the collector of the program of this number in the table.
collector() {
    echo "${COLLECTOR:-${collectors[($1 + (release - 17) / 4) % ${#collectors[@]}]}}"
}

# dumped FOLDER NAME FILE: runs the program, whose heap is dumped to FILE. One that takes too long is killed: another
# signal would start a thread in it, which may run out of memory and dump the heap.
dumped() {
    local options=("-Xmx${memory}m" "-XX:+Use${collector}GC")
    rm -f "$3"
    if [ "$1" = full ]; then
        options+=(-XX:+HeapDumpOnOutOfMemoryError "-XX:HeapDumpPath=$3" -XX:+ExitOnOutOfMemoryError)
    fi
    timeout --signal=KILL "$limit" "${java}java" -cp "$room/classes$path" "${options[@]}" "$1.$2" "$3" \
        > "$room/told" 2>&1 || [ $? != $killed ] || rm -f "$3"
    [ -s "$3" ] || { cat "$room/told" >&2; echo "$1/$2: no dump" >&2; exit 1; }
}

# hanging FILE FIELDS: prints how many bytes hang by FIELDS in the dump.
hanging() {
    { "${held[@]}" "$1" "$2" 2> /dev/null || true; } | awk '{ bytes += $2 } END { print bytes + 0 }'
}

# false_step FILE PATH: prints the first step of PATH that is false, if there is one.
false_step() {
    local rest=$2 upper lower above both
    upper=${rest%% > *}
    above=$(hanging "$1" "$upper")
    until [[ $rest != *' > '* ]]; do
        rest=${rest#* > }
        lower=${rest%% > *}
        both=$(hanging "$1" "$lower")
        # By both hangs what hangs by the lower one, too. held has no list of a thread or a local and a field.
        if [[ $upper != local* && $upper != thread* && $upper != together* && $lower != together* ]]; then
            both=$(hanging "$1" "$upper, $lower")
        fi
        [ "$both" -le "$above" ] || { echo "$upper ($above bytes) > $lower ($both bytes)"; return; }
        upper=$lower above=$(hanging "$1" "$lower")
    done
}

# ran_out THREAD: tests whether the output says that this thread ran out of memory, and begins its methods with one of
# these. THREAD is its name, a space, and beginnings of methods with ` | ` between them; `-` if the program did not run
# out.
ran_out() {
    local thread=${1%% *} methods=${1#* } said method
    said=$(grep -h 'ran out' "$room/lines" "$room/told" || true)
    [ "$1" != - ] || { [ -z "$said" ]; return; }
    until [ -z "$methods" ]; do
        method=${methods%% | *}
        methods=${methods#"$method"}
        methods=${methods# | }
        [[ $said != *"ran out in thread \"$thread\" in $method"* ]] || return 0
    done
    return 1
}

# alarmed: prints the first line of the output that has a word of a leak or of growth, if there is one.
alarmed() {
    cat "$room/lines" "$room/told" | sed 's/^leaks: //' | grep -iE -m 1 'leak|grew|grow' || true
}

# judge FOLDER FILE HOLDERS WORDS THREAD: counts and prints what the answer is worth.
judge() {
    local step said=
    step=$(false_step "$2" "$(path_of "$line")")
    [ "$1" = full ] || said=$(alarmed)
    if ! named "$line" "$3"; then
        counted wrong "line 1 does not name $3"
    elif [ -n "$step" ]; then
        counted wrong "a step is false: $step"
    elif ! ran_out "$5"; then
        counted wrong "the output does not say that memory ran out in $5"
    elif [ -n "$said" ]; then
        counted wrong "a healthy program leaks: $said"
    elif ! says "$4"; then
        counted partly "line 1 names the holder, but nothing says $4"
    else
        right=$((right + 1))
    fi
}

# try FOLDER FILE HOLDERS WORDS THREAD: runs tools/leaks on the dump, and prints the row of the table.
try() {
    ask "$2"
    asked+=("$runs")
    awk -v name="$(basename "$2" .hprof)" -v size="$(megabytes "$2")" -v seconds="$microseconds" -v runs="$runs" '{
        printf "| %s | %s | %.1f | %d | `%s` |\n", name, size, seconds / 1e6, runs, $0
    }' <<< "$line"
    judge "$@"
}

choose "$@"
counting
mkdir -p "$dumps"
[ -n "${DUMPED:-}" ] || compile "$top/bench/java/oom"
shopt -s nullglob
mapfile -t order < <(rows | cut -f 2)
echo '| Dump | MB | Seconds | Runs | First line |'
echo '|---|---|---|---|---|'
for row in "${chosen[@]}"; do
    IFS=$'\t' read -r folder name needed _ packages jars holders words thread <<< "$row"
    if [ -n "${DUMPED:-}" ]; then
        files=("$dumps/$name"-*.hprof)
    else
        for number in "${!order[@]}"; do [ "${order[number]}" != "$name" ] || break; done
        collector=$(collector "$number")
        files=("$dumps/$name-$release-$collector.hprof")
    fi
    lacking=$(missing "$needed" "$packages" "$jars")
    if [ -n "$lacking" ]; then
        omitted=$((omitted + 1))
        echo "| $name | | | | left out: it needs $lacking |"
        continue
    fi
    if [ -z "${DUMPED:-}" ]; then
        class_path "$jars"
        dumped "$folder" "$name" "${files[0]}"
    fi
    for file in "${files[@]}"; do try "$folder" "$file" "$holders" "$words" "$thread"; done
    [ -n "${DUMPED:-}${KEPT:-}" ] || rm "${files[@]}"
done
printf '%s\n' "${asked[@]:-0}" | sort -n | awk '{ runs[NR] = $0 } END { print "median runs: " runs[int((NR + 1) / 2)] }'
judged
