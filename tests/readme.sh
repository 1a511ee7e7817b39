#!/bin/sh
# README.md tried as a newcomer would: its commands are run, and each line that they print stands there.
set -eu
cd "$(dirname "$0")/.."
room=$(mktemp -d)
trap 'rm -rf "$room"' EXIT
lines=0
stands() {
    while IFS= read -r line; do
        grep -Fqx "    $line" README.md || { echo "README.md: it does not say: $line"; exit 1; }
        lines=$((lines + 1))
    done <"$room/said"
}
./kiosk 0 4 depart 50 >"$room/said"
stands
tools/drawing.py --asked 50 examples/N.txt <"$room/said" >"$room/N1.svg"
cmp "$room/N1.svg" docs/N1.svg
tools/timetable.py examples/town.txt >"$room/town.net"
tools/fault.py "$room/town.net" >"$room/said"
stands
./kiosk 1 7 depart 6:55:00 tables:"$room/town.net" >"$room/said"
stands
./kiosk 0 4 depart 50 bytes | ./checkjourney 0 4 depart 50 >"$room/said"
stands
rust/library.sh >/dev/null
(cd rust && CARGO_TARGET_DIR=../target/rust cargo run --offline --quiet --example gtfs -- ../examples/feed 'Harbour, east' Hill depart 7:50:00) >"$room/said"
stands
[ $lines -eq 13 ] || { echo "README.md: $lines lines were printed"; exit 1; }
echo "README.md: its commands print what it says"
