# Programs that are dumped, and lines of tools/leaks that are judged. To be sourced by leaks.sh and oom.sh, which have a
# function `programs` that prints their tables, before they do anything: it reads their words by usage.sh.
#
# Sets `java` and the functions of machine.sh; `release`, the version of Java, unless DUMPED is set; `top`, the
# repository; `leaks`, the command that is tried, and `held`; `room`, a folder that is removed at the end; `dumps`, the
# folder of the dumps; and HEAPMARK, a program that counts how often it is started and becomes heapmark.
#
# A table has three lines for each program or more, of which each but the first is indented:
#
# - its folder and name, the version of Java that it needs (`17`, or `17-23` if it does not run on later ones), and the
#   number of its dumps; then, if it needs libraries, the Debian packages that have them and the names of their jars,
#   with commas between them;
# - the holder. Holders of which any is right have ` | ` between them; `*` is any letters. Fields that only together
#   hold the leak are right if each of them is, or if they are those of one holder `together FIELD, FIELD..`, in any
#   order. After `also`, the holder of another leak, the larger ones first: in leaks.sh, each is to have a line;
# - after `says`, the words that the output must have, too;
# - after `ran out`, the name of the thread that runs out of memory, and how its first own method begins.
# shellcheck shell=bash disable=SC2034 # what is set here is used there

top=$(cd "$(dirname "${BASH_SOURCE[0]}")/.." && pwd)
# shellcheck source=bench/machine.sh
. "$top/bench/machine.sh"
heapmark=${HEAPMARK:-$top/crates/heapmark/out/heapmark}
read -r -a leaks <<< "${LEAKS:-$top/tools/leaks}"
read -r -a held <<< "${HELD:-$top/tools/held}"
room=$(mktemp -d)
trap 'rm -rf "$room"' EXIT
dumps=${DUMPED:-${KEPT:-$room}}
[ -n "${DUMPED:-}" ] || release=$(version)
right=0 partly=0 wrong=0 omitted=0

# counting: writes the program that counts its starts.
counting() {
    printf '#!/bin/sh\necho >> "%s"\nexec "%s" "$@"\n' "$room/starts" "$(realpath "$heapmark")" > "$room/heapmark"
    chmod +x "$room/heapmark"
    export HEAPMARK=$room/heapmark
}

# rows: prints a line for each program: its folder, name, version, number of dumps, packages, jars, holder, words and
# thread, with tabs between them, `-` for those that it does not have.
rows() {
    programs | awk '
        function printed() { if (row != "") print row "\t" holder "\t" words "\t" thread }
        /^ +says / { words = substr($0, index($0, "says ") + 5); next }
        /^ +ran out / { thread = substr($0, index($0, "ran out ") + 8); next }
        /^ / { sub(/^ +/, ""); holder = holder (holder == "" ? "" : " ") $0; next }
        { printed(); holder = ""; words = thread = "-"; sub("/", "\t", $1)
          row = $1 "\t" $2 "\t" $3 "\t" ($4 == "" ? "-" : $4) "\t" ($5 == "" ? "-" : $5) }
        END { printed() }'
}

# choose WORD..: sets `chosen` to the rows of the programs or folders WORD, all if none is given. Ends the script with
# status 2 if there is no such program.
choose() {
    local all word row count folder name
    mapfile -t all < <(rows)
    chosen=()
    for word in "${@:-*}"; do
        count=${#chosen[@]}
        for row in "${all[@]}"; do
            IFS=$'\t' read -r folder name _ <<< "$row"
            # shellcheck disable=SC2053 # no word stands for all
            [[ $name != $word && $folder != $word ]] || chosen+=("$row")
        done
        [ "${#chosen[@]}" -gt "$count" ] || { echo "no such program: $word" >&2; exit 2; }
    done
}

# megabytes FILE..: prints the sizes of the files, with commas between them.
megabytes() {
    stat -c %s "$@" | awk '{ printf "%s%.1f", (NR == 1 ? "" : ", "), $1 / 1e6 }'
}

# class_path JARS: sets `path` to the class path of the jars, a colon before each. Returns 1 if one is missing.
class_path() {
    local jar jars
    path=
    [ "$1" != - ] || return 0
    IFS=, read -r -a jars <<< "$1"
    for jar in "${jars[@]}"; do
        # shellcheck disable=SC2206 # a name may be a pattern
        jar=(/usr/share/java/$jar.jar)
        [ -e "${jar[0]}" ] || return 1
        path+=$(printf ':%s' "${jar[@]}")
    done
}

# missing VERSION PACKAGES JARS: prints what the program needs that is not here, if there is such a thing.
missing() {
    local last=${1#*-}
    if [ -n "${DUMPED:-}" ]; then
        [ -e "${files[0]:-}" ] || echo "a dump${files[0]:+, $(basename "${files[0]}")}"
    elif [ "${1%-*}" -gt "$release" ]; then
        echo "Java ${1%-*}"
    elif [[ $1 = *-* && $last -lt $release ]]; then
        echo "Java $last or older"
    else
        class_path "$3" || echo "${2//,/ }"
    fi
}

# compile SOURCES: compiles the programs of `chosen` that lack nothing, those of a folder of SOURCES by one javac. A
# library's annotation processor would run on the programs of others, too: so none does.
compile() {
    local row folder name needed packages jars
    local -A paths=()
    for row in "${chosen[@]}"; do
        IFS=$'\t' read -r folder name needed _ packages jars _ <<< "$row"
        if [ -z "$(missing "$needed" "$packages" "$jars")" ]; then
            class_path "$jars"
            paths[$folder]+=$path
            echo "\"$1/$folder/$name.java\"" >> "$room/$folder.files"
        fi
    done
    for folder in "${!paths[@]}"; do
        "${java}javac" -Xlint:-options -proc:none -encoding UTF-8 -sourcepath "$1" \
            -cp "$room/classes${paths[$folder]}" -d "$room/classes" "@$room/$folder.files"
    done
}

# fields_of FIELDS: prints the fields of `together FIELD, FIELD..`, in the order of the alphabet, or the only field.
fields_of() {
    local fields
    IFS=, read -r -a fields <<< "${1#together }"
    printf '%s\n' "${fields[@]# }" | sort
}

# is FIELD HOLDERS: tests whether FIELD is one of HOLDERS. More words may come after the field.
is() {
    local holders=$2 holder
    until [ -z "$holders" ]; do
        holder=${holders%% | *}
        holders=${holders#"$holder"}
        holders=${holders# | }
        holder=${holder//[\\]/\\\\}
        holder=${holder//\[/\\[}
        # shellcheck disable=SC2053 # a holder is a pattern
        [[ $1 != $holder && $1 != ${holder}[\ :]* ]] || return 0
        # shellcheck disable=SC2053
        [[ $1 != 'together '* || $holder != 'together '* || $(fields_of "$1") != $(fields_of "$holder") ]] || return 0
    done
    return 1
}

# path_of LINE: prints the path of a line: all after its figures.
path_of() {
    echo "${1##*  }"
}

# named LINE HOLDERS: tests whether the last field of LINE, to which fields above it may lead, is one of HOLDERS, or is
# some of them together, and whether LINE says nothing of the catalog.
named() {
    local found part
    found=$(path_of "$1")
    found=${found##* > }
    [[ -n $found && $1 != */Catalog* ]] || return 1
    ! is "$found" "$2" || return 0
    [[ $found == 'together '* ]] || return 1
    found=${found#together }
    while [ -n "$found" ]; do
        part=${found%%, *}
        is "$part" "$2" || return 1
        found=${found#"$part"}
        found=${found#, }
    done
}

# ask FILE..: runs tools/leaks on these dumps. Sets `line`, its first line, `microseconds` and `runs`, how often it
# started heapmark; the lines go into the file `lines`, and what it says into `told`.
ask() {
    local begun=${EPOCHREALTIME/./}
    : > "$room/starts"
    "${leaks[@]}" "$@" > "$room/lines" 2> "$room/told" < /dev/null || true
    microseconds=$((${EPOCHREALTIME/./} - begun))
    runs=$(wc -l < "$room/starts")
    line=$(head -n 1 "$room/lines")
}

# says WORDS: tests whether the output has WORDS, or WORDS is `-`.
says() {
    [ "$1" = - ] || grep -qF -e "$1" "$room/lines" "$room/told"
}

# counted VERDICT WHY: counts an answer that is `wrong` or `partly` right, and prints why and the whole output.
counted() {
    if [ "$1" = wrong ]; then
        wrong=$((wrong + 1))
        echo "WRONG: $2:"
    else
        partly=$((partly + 1))
        echo "PARTLY: $2:"
    fi
    cat "$room/lines" "$room/told"
}

# judged: prints how many answers were right. Returns 1 if one was wrong or partly right.
judged() {
    local between=
    [ "$partly" = 0 ] || between="$partly partly, "
    echo "$right right, $between$wrong wrong, $omitted left out"
    [ "$((wrong + partly))" -eq 0 ]
}
