#!/bin/sh
# The search in three writings, the Rust, plain C and ours: builds them and measures them.
#   search.sh                   the tables of docs/BENCHMARKS.md, each between its marks; page.sh writes them there
#   search.sh times [CITY]      the times in three cities, or in one of them: small, middle, limit
#   search.sh growth            how the time grows with stops, routes, trips and rides
#   search.sh memory            the memory of each
#   search.sh judge             a yes or no on journey bytes, beside a search for the same query
#   search.sh threads           the Rust over the real rayon, with one thread and with its default
# LTO=1 times the Rust with link-time optimization; ../compare/writings.sh says what leaves a writing out.
set -eu
root=$(cd "$(dirname "$0")/.." && pwd)
. "$root/compare/writings.sh"
bench=$root/target/bench timed=release
mkdir -p "$bench"
[ "${LTO:-0}" = 0 ] || timed=best

# program NAME PROFILE KIND: one that measures; timed without overflow checks.
program() {
    name=$bench/$1 profile=$2 kind=$3
    set --
    for f in search measure table times growth memory threads judge; do set -- "$@" "$root/bench/$f.c"; done
    build "$name" "$profile" "$kind" "$@"
}

# table NAME COMMAND: a table between its marks, which name the processor too, since the page holds a table of each kind of processor.
table() {
    printf '<!-- %s %s -->\n\n' "$1" "$(uname -m)"
    printf '%s (%s), %s cores, %s, load %s when it began:\n\n' "$(lscpu | sed -n 's/^Model name: *//p' | head -n 1)" "$(uname -m)" "$(nproc)" \
        "$(date +%Y-%m-%d)" "$(cut -d ' ' -f 1 /proc/loadavg)"
    shift
    "$@"
    printf '\n<!-- end -->\n'
}

case ${1:-all} in
all)
    program search $timed plain
    table times "$bench/search" times
    table growth "$bench/search" growth
    table judge "$bench/search" judge
    program search-memory $timed counting
    table memory "$bench/search-memory" memory
    if has_rayon; then
        program search-threads $timed threads
        table threads "$bench/search-threads" threads
    fi
    [ $rust = 1 ] || exit 0
    program search-best best plain
    table best "$bench/search-best" times limit
    ;;
memory)
    program search-memory $timed counting
    exec "$bench/search-memory" memory
    ;;
threads)
    has_rayon || exit 0
    program search-threads $timed threads
    exec "$bench/search-threads" threads
    ;;
*)
    program search $timed plain
    exec "$bench/search" "$@"
    ;;
esac
