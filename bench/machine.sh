# Starts programs on a Java virtual machine and ends them. To be sourced by the scripts that dump programs, before they
# do anything: it reads their words by usage.sh.
#
# Sets `java`, the prefix of the commands `java`, `javac`, `jcmd` and `jshell`: the folder of programs in JAVA_HOME, or
# nothing if JAVA_HOME is not set, so that the commands of PATH are taken. Sets the locale, too: names of classes, of
# which some are names of files, have letters beyond ASCII.
# shellcheck shell=bash disable=SC2034 # what is set here is used there

# shellcheck source=bench/usage.sh
. "$(dirname "${BASH_SOURCE[0]}")/usage.sh"
java=${JAVA_HOME:+$JAVA_HOME/bin/}
export LC_ALL=C.UTF-8

# version: prints the version of Java, such as 17.
version() {
    "${java}java" -XshowSettings:properties -version 2>&1 | sed -n 's/^ *java.specification.version = //p'
}

# begun COMMAND..: starts a program that reads its input.
begun() {
    coproc PROGRAM { exec "$@"; }
}

# until_ready: waits until the program prints a line "ready". Fails if it ends before.
until_ready() {
    local line=
    until [ "$line" = ready ]; do read -r line <&"${PROGRAM[0]}" || return; done
}

# started COMMAND..: starts a program that prints "ready" and then reads its input.
started() {
    begun "$@"
    until_ready
}

# told LINE: sends LINE to the program, and waits until the program prints "ready" again.
told() {
    echo "$1" >&"${PROGRAM[1]}"
    until_ready
}

# ended: closes the input of the program that was started, and waits for its end.
ended() {
    local program=$PROGRAM_PID input=${PROGRAM[1]}
    exec {input}>&-
    wait "$program"
}
