#!/usr/bin/env bash
# Compares the shares in the first lines of tools/leaks with the virtual machine's own histograms of the same moments.
#
# usage: bench/shares.sh [NAME..]
#
# NAME..: programs of bench/leaks.sh (eleven of them). Each dumps itself before and after its leak grew, and its virtual
# machine logs a histogram as each dump begins: what `jcmd PID GC.class_histogram` prints. Prints a table, as
# bench/share_figures.py says: program, field, growth of the heap in megabytes as leaks and as the histograms have it,
# what the line holds of that, by both, and both shares in percent. Fails if a share differs. The collections of the run
# leave no dead object in the heap: a histogram has these, too, and leaks counts what is reachable.
#
# Java is that of JAVA_HOME, else that of PATH. heapmark is the binary of crates/heapmark/out, or what the variable
# HEAPMARK names. KEPT: a folder in which dumps and logs stay; those that are there are not made again.
set -euo pipefail

top=$(cd "$(dirname "$0")/.." && pwd)
# shellcheck source=bench/usage.sh
. "$top/bench/usage.sh"
[ $# -gt 0 ] || set -- MetricsService QuoteService PaymentService UploadService MailService TracingService TagService \
    BasketService InboxService LabelService RegionService
kept=${KEPT:-$(mktemp -d)} status=0
[ -n "${KEPT:-}" ] || trap 'rm -rf "$kept"' EXIT
mkdir -p "$kept"

# logged NAME: dumps a program, and keeps the log of its virtual machine.
logged() {
    local room options
    room=$(mktemp -d "$kept/XXXXXX")
    options="-XX:+UseSerialGC -XX:MarkSweepDeadRatio=0 -XX:MarkSweepAlwaysCompactCount=1"
    KEPT=$kept HEAPMARK=true LEAKS=true HELD=true \
        JAVA_TOOL_OPTIONS="$options -Xlog:gc,gc+classhisto*=trace:file=$room/%p" \
        "$top/bench/leaks.sh" "$1" > "$room/told" 2>&1 || true
    mv "$(grep -l 'Heap Dump Initiated GC' "$room"/*)" "$kept/$1.log"
    rm -r "$room"
}

echo '| Program | Field | Grew | In histograms | Held of it | By histograms | Share | By histograms |'
echo '|---|---|---|---|---|---|---|---|'
for name; do
    [ -s "$kept/$name.log" ] || logged "$name"
    "$top/bench/share_figures.py" "$kept/$name-before.hprof" "$kept/$name-after.hprof" "$kept/$name.log" || status=1
done
exit $status
