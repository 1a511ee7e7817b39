#!/bin/sh
# Builds the library for this machine and tests it from Rust and from C: the crate's tests, the C example of README.md, kiosk.h and
# kiosk_gtfs.h (tests/face.sh), then the examples that ask in tables of any size and in a feed. Where KIOSK_LIB_DIR names a folder with
# libkiosk_c.a and libgtfs_c.a, those are tested and nothing is built.
set -eu
lib=$("$(dirname "$0")/library.sh")
cd "$(dirname "$0")/.."
out=$PWD/target/rust
(cd rust && KIOSK_LIB_DIR=$lib cargo test --offline --target-dir "$out")

sed -n '/^```c$/,/^```$/p' rust/README.md | sed '/^```/d' > "$out/example.c"
cc -Wall -Wextra -Werror -I crates/kiosk_c/include -o "$out/example" "$out/example.c" "$lib/libkiosk_c.a"
said=$("$out/example")
wanted=$(sed -n 's|^/\* prints: \(.*\) \*/$|\1|p' "$out/example.c")
[ -n "$wanted" ] && [ "$said" = "$wanted" ] || { echo "the C example says '$said', not '$wanted'"; exit 1; }
echo "the C example says: $said"
KIOSK_LIB_DIR=$lib tests/face.sh

# the example that asks in tables of any size: N's journey, one over 4,096 stops, and what is refused
by=ask
asked() { # STATUS LINES LAST ARG..
    status=$1 lines=$2 last=$3
    shift 3
    "$out/debug/examples/$by" "$@" > "$out/asked" 2>&1 && was=0 || was=$?
    if [ $was -ne $status ] || [ "$(wc -l < "$out/asked")" -ne "$lines" ] || [ "$(tail -n 1 "$out/asked")" != "$last" ]; then
        echo "$by $*: status $was, and it said:"
        head -n 5 "$out/asked"
        exit 1
    fi
}
asked 0 4 'ride trip 2 from stop 3 at 0:05:50 to stop 4 at 0:07:30' target/face/N.net 0 4 depart 50
asked 0 4096 'transfer from stop 4094 at 2:33:08 to stop 4095 at 2:33:09' target/face/long.net 0 4095 depart 1
asked 0 3 'walk from stop 6 at 7:20:00 to stop 7 at 7:21:01' target/face/town.net 1 7 depart 6:55:00
asked 1 1 "7: a stop or area that doesn't exist" target/face/N.net 0 9 depart 50
asked 1 1 'examples/N.txt: # is no word of tables' examples/N.txt 0 4 depart 50
asked 2 2 "$(sed -n 's/^const USAGE: &str = "\(.*\)";$/\1/p' rust/examples/ask.rs)" target/face/N.net 0 4 leave 50
echo "the example asks as it should in tables of 5, 8 and 4,096 stops"

# the example that asks in a feed
by=gtfs
asked 0 3 'ride tram-1 from Platform "A" at 8:10:00 to Hill at 8:20:00' examples/feed 'Harbour, east' Hill depart 7:50:00
asked 0 2 'transfer from School at 8:41:00 to Pier at 8:42:40' examples/feed 'Harbour, east' Pier depart 8:26:00
asked 0 3 'ride tram-2 from Platform "A" at 8:40:00 to Hill at 8:50:00' examples/feed 'Harbour, east' Hill arrive 8:52:00
asked 1 1 '10: no chosen stop' examples/feed 'Harbour, east' Hill depart 8:41:00
asked 1 1 'examples/feed: there is no stop harbour' examples/feed harbour Hill depart 7:50:00
asked 2 2 "$(sed -n 's/^const USAGE: &str = "\(.*\)";$/\1/p' rust/examples/gtfs.rs)" examples/feed Market Hill depart 7:5
mkdir -p "$out/feed"
sed 's/8:20:00/8:2:00/' examples/feed/stop_times.txt > "$out/feed/stop_times.txt"
cp examples/feed/transfers.txt "$out/feed"
asked 1 1 "$out/feed: 14: stop_times.txt, line 12: a bad line" "$out/feed" Market Hill depart 7:50:00
echo "the example asks as it should in a feed"
