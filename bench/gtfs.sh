#!/bin/sh
# gtfs.sh [ROUNDS]: a feed at the limits, 262,144 rows, read and written by the proved library and by plain C, and read by Python's csv and
# awk; and a hostile feed, whose 4,096 stops all fall into one slot of the book. The table of docs/BENCHMARKS.md, between its marks; page.sh
# writes it there. GTFS_LIB=FILE takes that archive or object in place of the proved one.
set -eu
root=$(cd "$(dirname "$0")/.." && pwd)
out=$root/target/bench lib=${GTFS_LIB:+$(realpath "$GTFS_LIB")}
mkdir -p "$out"
[ -n "$lib" ] || { lib=$root/target/native/gtfs_c.o && "$root/compare/native.sh" gtfs_c "$lib"; }
cc -O3 -o "$out/gtfs" "$root/bench/gtfs.c" "$root/plain/gtfs.c" "$lib"
for feed in large slow; do python3 "$root/compare/gtfs.py" $feed "$out/feed-$feed"; done
printf '<!-- feed %s -->\n\n' "$(uname -m)"
printf '%s (%s), %s cores, %s, load %s when it began:\n\n' "$(lscpu | sed -n 's/^Model name: *//p' | head -n 1)" "$(uname -m)" "$(nproc)" \
    "$(date +%Y-%m-%d)" "$(cut -d ' ' -f 1 /proc/loadavg)"
python3 "$root/bench/gtfs.py" "$out/gtfs" "$out/feed-large" "$out/feed-slow" "${1:-5}"
printf '\n<!-- end -->\n'
