# The head of run.sh, phases.sh, visualvm.sh and retained.sh, which are called with the same words: [RUNS [DUMP..]]. To
# be sourced.
#
# Reads the words by usage.sh. Sets `runs` if RUNS is given; `dumps`, those of /tmp/heapmark-bench if none is given;
# `top`, the repository; `heapmark`, the binary that `rt run` in crates/heapmark made, or what the variable HEAPMARK
# names; and `room`, a folder that is removed at the end. The words of the variable STARTER start each run: on a busy
# machine STARTER='chrt -f 10', as root, keeps other work off the processors.
# shellcheck shell=bash disable=SC2034 # what is set here is used there
set -euo pipefail

top=$(cd "$(dirname "$0")/.." && pwd)
# shellcheck source=bench/usage.sh
. "$top/bench/usage.sh"
runs=${1:-$runs}
require_number RUNS "$runs"
[ $# -eq 0 ] || shift
dumps=("$@")
[ $# -gt 0 ] || dumps=(/tmp/heapmark-bench/*.hprof)
require_files "${dumps[@]}"
heapmark=${HEAPMARK:-$top/crates/heapmark/out/heapmark}
starter=${STARTER:-}
room=$(mktemp -d)
trap 'rm -rf "$room"' EXIT
