#!/bin/sh
# The program `showlegs` held to document 01: legs and their number; `bad` and the offset of the bad leg's first byte; `long` above 4,096 bytes.
# An input that cannot be read is `unreadable`.
set -eu
cd "$(dirname "$0")/.."
tools/build.sh showlegs 2>/dev/null || tools/build.sh showlegs || exit 1
room=$(mktemp -d)
trap 'rm -rf "$room"' EXIT

# ride FROM TO TRIP DEPARTURE ARRIVAL, transfer and walk FROM TO DEPARTURE ARRIVAL: a leg's bytes, with fields below 65,536
fields() { for f; do printf "\\$(printf %03o $((f % 256)))\\$(printf %03o $((f / 256)))\\000\\000"; done; }
ride() { printf '\001'; fields "$@"; }
transfer() { printf '\002'; fields "$@"; }
walk() { printf '\003'; fields "$@"; }
n1() { ride 0 2 0 100 300; transfer 2 3 300 330; ride 3 4 2 350 450; }
n1_said='ride 0 2 0 100 300
transfer 2 3 - 300 330
ride 3 4 2 350 450'
# again COUNT COMMAND ..: the command so many times
again() { left=$1; shift; while [ "$left" -gt 0 ]; do "$@"; left=$((left - 1)); done; }

runs=0
# held WHAT BYTES: what is printed for the bytes on standard input is what stands in the file `expected`
held() {
    tests/run.sh showlegs <"$room/bytes" >"$room/printed"
    if [ "$(wc -c <"$room/bytes")" -ne "$2" ] || ! diff "$room/expected" "$room/printed"; then
        echo "showlegs: $1: what it printed (>) is not what was expected (<)"
        exit 1
    fi
    runs=$((runs + 1))
}

n1 >"$room/bytes"
printf '%s\nlegs 3\n' "$n1_said" >"$room/expected"
held "N1's journey" 59

: >"$room/bytes"
echo 'legs 0' >"$room/expected"
held 'no byte' 0

walk 1 258 3 65535 >"$room/bytes"
printf 'walk 1 258 - 3 65535\nlegs 1\n' >"$room/expected"
held 'a walk' 17

n1 | head -c 58 >"$room/bytes"
echo 'bad 38' >"$room/expected"
held 'the last body cut by a byte' 58

n1 | head -c 39 >"$room/bytes"
held 'a kind and no body' 39

{ n1; printf '\004'; fields 1 2 3 4 5; } >"$room/bytes"
echo 'bad 59' >"$room/expected"
held 'an unknown kind behind whole legs' 80

printf '\000' >"$room/bytes"
echo 'bad 0' >"$room/expected"
held 'a kind of 0' 1

# 4 rides and 236 footpaths take 4,096 bytes
{ n1; again 235 walk 5 6 700 800; again 2 ride 9 10 11 12 13; } >"$room/bytes"
{ printf '%s\n' "$n1_said"; again 235 echo 'walk 5 6 - 700 800'; again 2 echo 'ride 9 10 11 12 13'; echo 'legs 240'; } >"$room/expected"
held '4,096 bytes' 4096

printf '\001' >>"$room/bytes"
echo long >"$room/expected"
held '4,097 bytes' 4097

# a failed read is no empty journey: a directory, and an input that is closed
echo unreadable >"$room/expected"
tests/run.sh showlegs <"$room" >"$room/printed"
diff "$room/expected" "$room/printed" || { echo 'showlegs: a directory'; exit 1; }
runs=$((runs + 1))
tests/run.sh showlegs <&- >"$room/printed"
diff "$room/expected" "$room/printed" || { echo 'showlegs: a closed input'; exit 1; }
runs=$((runs + 1))

# bytes that come in parts are one journey
{ ride 0 2 0 100 300; sleep 1; transfer 2 3 300 330; ride 3 4 2 350 450; } | tests/run.sh showlegs >"$room/printed"
printf '%s\nlegs 3\n' "$n1_said" >"$room/expected"
diff "$room/expected" "$room/printed" || { echo 'showlegs: bytes in parts'; exit 1; }
runs=$((runs + 1))

echo "showlegs: $runs runs printed what document 01 asks for"
