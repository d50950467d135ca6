#!/usr/bin/env bash
# Counts the instructions of an edit in a message of 16 words and in one of 65,536, by callgrind, and fails where they differ
# by more than 2 in 100. The program is target/bench/edit_once, which `make edit-cost` builds.
set -euo pipefail
cd "$(dirname "$0")/.."

short=16
long=65536
most=2 # in 100
program=target/bench/edit_once
log=target/bench/edit_once.log

fail() {
    echo "edit-cost: $*" >&2
    exit 1
}

# count W N T: the instructions of one edit, of as many as the program says that it makes.
count() {
    local edits collected
    edits=$(valgrind --tool=callgrind --toggle-collect=pairing_incremental_edit --callgrind-out-file=/dev/null \
        --log-file="$log" "$program" "$@") || fail "$program $* failed; see $log"
    collected=$(sed -n 's/.*Collected : \([1-9][0-9]*\)$/\1/p' "$log")
    [ -n "$collected" ] || fail "no instructions of pairing_incremental_edit were counted; see $log"
    echo $((collected / edits))
}

command -v valgrind >/dev/null || fail "there is no command valgrind"
failed=
for w in 32 16; do
    for n in 1 8; do
        few=$(count $w $n $short)
        many=$(count $w $n $long)
        apart=$((many > few ? many - few : few - many))
        in_100=$((100 * apart / few)).$((1000 * apart / few % 10))
        echo "w $w, n $n: $few instructions an edit of $short words, $many of $long: $in_100 in 100 apart"
        [ $((100 * apart)) -le $((most * few)) ] || failed=yes
    done
done
[ -z "$failed" ] || fail "they are more than $most in 100 apart"
