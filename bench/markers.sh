# Runs heapmark, retained and the plain marker, and says how a run ended. To be sourced by the scripts that compare
# them.
#
# The script sets `room`, a folder for what the runs print. To compare tables it sets `of_tables`, and builds
# `same_tables` in `room`.
# shellcheck shell=bash disable=SC2034 disable=SC2154 # what is set here is used there, and the other way round

# ran NAME COMMAND..: runs a marker. Keeps its report in NAME.report and what else it prints in NAME.told. Sets
# `status`, and `spent` to its microseconds.
ran() {
    local name=$1 start
    shift
    status=0
    start=${EPOCHREALTIME/./}
    "$@" > "$room/$name.report" 2> "$room/$name.told" || status=$?
    spent=$((${EPOCHREALTIME/./} - start))
    how_ended "$name" > "$room/$name.end"
}

# is_table FILE: tests whether FILE is empty or ends with a line of a table of labels: objects, bytes, remainder, set
# and class.
is_table() {
    [ ! -s "$1" ] || tail -n 1 "$1" | grep -Eq '^ *[0-9]+ +[0-9]+ +[0-9]+  (-|[0-9]+)  [^ ]+$'
}

# how_ended NAME: prints how the run that `ran` kept as NAME ended: `report`, `table`, `refused 3 Truncated at 70`, or
# `failed` with its status if it was none of these, as after a signal or a status without a refusal.
how_ended() {
    local refusal
    refusal=$(sed -n 's/^[a-z]*: \(refused [0-9].*\)/\1/p' "$room/$1.told")
    if [ "$status" -eq 0 ] && [[ $(tail -n 1 "$room/$1.report") == *'(unresolved)' ]]; then
        echo report
    elif [ "$status" -eq 0 ] && [ -n "${of_tables:-}" ] && is_table "$room/$1.report"; then
        echo table
    elif [ "$status" -eq 1 ] && [ ! -s "$room/$1.report" ] && [ -n "$refusal" ]; then
        echo "$refusal"
    else
        echo "failed with status $status: $(tail -n 1 "$room/$1.told")"
    fi
}

# end_of NAME: prints how the run NAME ended, as `how_ended` does.
end_of() {
    cat "$room/$1.end"
}

# require_report NAME: ends the script with status 1 if the run NAME gave no report.
require_report() {
    [ "$(end_of "$1")" = report ] || { echo "${0##*/}: $1: $(end_of "$1")" >&2; exit 1; }
}

# failed NAME: tests whether the run NAME ended without a report, a table or a refusal.
failed() {
    [[ $(end_of "$1") == failed* ]]
}

# same_table NAME OTHER: tests whether two runs gave tables that say the same, or the same refusal.
same_table() {
    ! failed "$1" && cmp -s "$room/$1.end" "$room/$2.end" &&
        { [ "$(end_of "$1")" != table ] ||
            "$room/same_tables" "$room/$1.report" "$room/$2.report" > "$room/same"; }
}

# alike NAME OTHER: tests whether two runs gave the same report, or the same refusal.
alike() {
    ! failed "$1" && cmp -s "$room/$1.end" "$room/$2.end" && cmp -s "$room/$1.report" "$room/$2.report"
}
