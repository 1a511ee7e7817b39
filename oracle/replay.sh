#!/bin/sh
# Builds the Rust, asks it every query of cases.txt and compares with answers.txt.
set -eu
"$(dirname "$0")/build.sh"
cd "$(dirname "$0")"
target/checked/oracle cases.txt > target/replayed.txt
paste -d '\n' answers.txt target/replayed.txt | awk '
    NR % 2 { kept = $0; next }
    { n++ }
    $0 != kept { differ++; print "query " n ": kept \"" kept "\", now \"" $0 "\"" }
    END { print n + 0 " answers, " differ + 0 " differ"; exit n == 0 || differ > 0 }'
