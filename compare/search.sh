#!/bin/sh
# The search in three writings, the Rust, plain C and ours: builds them and compares what they answer.
#   search.sh fuzz COUNT SEED                   COUNT small nasty networks: all agree on every query
#   search.sh cities middle|limit COUNT SEED    COUNT cities of 60 to 200 stops, or at the limits: all agree on 256 queries and more in each
#   search.sh kept                              the Rust's kept answers (../oracle): all agree with them
# In rescan mode the Rust is asked with its route marks refilled before every round (../oracle); PUBLISHED=1 asks it as published there too,
# and must end in differences. RAYON=1 compares the Rust over the real rayon too; writings.sh says what leaves a writing out. It is built with
# overflow checks: a span above its label is a panic.
set -eu
root=$(cd "$(dirname "$0")/.." && pwd)
. "$root/compare/writings.sh"
kind=plain
if [ "${RAYON:-0}" != 0 ] && has_rayon; then kind=threads; fi
build "$built/search" checked $kind "$root/compare/search.c" "$root/compare/small.c" "$root/compare/cities.c" "$root/compare/kept.c" \
    "$root/compare/nasty.c"
[ "${1:-}" != kept ] || set -- kept "$root/oracle/cases.txt" "$root/oracle/answers.txt"
exec "$built/search" "$@"
