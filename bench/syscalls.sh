#!/usr/bin/env bash
# Counts the system calls of a put: syscalls.sh PROGRAM
# The program reads a script on its standard input and keeps its files in the folder where it runs, as weed does.
# It is run with 1 put and with 11. What the further ten take of each call is told by put, and has to be two writes to
# files, two fsyncs and no open: the record and its index entry, each made firm. Needs strace.
set -eu
program=$(realpath "$1")
puts=10
work=$(mktemp -d)
trap 'rm -rf "$work"' EXIT

script() {
    echo 'volume.create -volumeId=1 -server=0'
    for id in $(seq "$1"); do
        echo "put 1 $id 0000002a 313233343536373839"
    done
}

# trace NAME PUTS: runs the script, and writes the lines of its trace to NAME
trace() {
    mkdir "$work/$1"
    (cd "$work/$1" && script "$2" | strace -f -y -o "$work/$1.trace" "$program" >"$work/$1.said")
    if [ "$(grep -c '^OK$' "$work/$1.said")" -lt "$2" ]; then
        echo "syscalls: a put was refused" >&2
        exit 1
    fi
}

# count NAME PATTERN: how many lines of the trace have the call
count() {
    grep -cE "$2" "$work/$1.trace" || true
}

trace one 1
trace many $((1 + puts))
status=0

# compare NAME PATTERN WANTED: what a put after the first takes of the call
compare() {
    local taken=$(($(count many "$2") - $(count one "$2")))
    if [ "$taken" -eq $((puts * $3)) ]; then
        echo "a put after the first: $3 $1"
    else
        echo "$puts puts after the first: $taken $1, and $((puts * $3)) are wanted" >&2
        status=1
    fi
}
compare 'writes to files' ' (write|pwrite64|writev)\([0-9]+<[^>]*/s[0-9][0-9]/' 2
compare 'fsyncs' ' (fsync|fdatasync)\(' 2
compare 'opens' ' (open|openat|openat2)\(' 0
exit "$status"
