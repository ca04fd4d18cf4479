# Reads the words of a shell script. To be sourced by sh or bash before the script does anything.
#
# The comment at the head of a script is its help, which `--help` and `-h` print. Its line `usage: NAME WORD..` says
# which words the script takes: those in brackets are optional, and one that ends in `..` may come more than once.
# Another option, or another number of words, ends the script with status 2. What follows the word COMMAND is that
# command's.
# shellcheck shell=sh

# wrong_words MESSAGE: prints MESSAGE and the usage on standard error, and ends the script with status 2.
wrong_words() {
    printf '%s: %s\n' "${0##*/}" "$1" >&2
    sed -n 's/^# usage: /usage: /p' "$0" >&2
    exit 2
}

# require_number NAME VALUE: ends the script with status 2 unless VALUE is a number above 0.
require_number() {
    case $2 in
        '' | 0* | *[!0-9]*) wrong_words "$1 is not a number above 0: $2" ;;
    esac
}

# require_files FILE..: ends the script with status 2 unless each FILE can be read.
require_files() {
    for word; do
        [ -r "$word" ] || wrong_words "cannot be read: $word"
    done
}

# require_kinds KNOWN KIND..: ends the script with status 2 unless each KIND is a line of KNOWN.
require_kinds() {
    known=$1
    shift
    for word; do
        printf '%s\n' "$known" | grep -qxF -e "$word" || wrong_words "no such kind: $word"
    done
}

# words_of_usage: prints the least number of words, the largest, and how many come before those of a command.
words_of_usage() {
    awk '/^# usage: / {
        most = NF - 3
        own = 9999
        for (at = 4; at <= NF; at++) {
            if ($at ~ /\[/) optional = 1
            if (!optional) least++
            if ($at ~ /COMMAND/) own = at - 4
            if ($at ~ /\.\./) most = 9999
        }
        print least + 0, most, own
    }' "$0"
}

# read_words LEAST MOST OWN WORD..: prints the help if one of the first OWN words requests it. Ends the script if a word
# is wrong.
read_words() {
    least=$1 most=$2 own=$3
    shift 3
    at=0
    for word; do
        at=$((at + 1))
        [ $at -le "$own" ] || break
        case $word in
            -h | --help)
                awk 'NR > 1 { if (!/^#/ || /^# shellcheck /) exit; sub(/^# ?/, ""); print }' "$0"
                exit 0
                ;;
            -?*) wrong_words "no such option: $word" ;;
        esac
    done
    [ $# -ge "$least" ] || wrong_words "too few words: $#"
    [ $# -le "$most" ] || wrong_words "too many words: $#"
}

# shellcheck disable=SC2046 # three numbers
read_words $(words_of_usage) "$@"
