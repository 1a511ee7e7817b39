#!/bin/sh
# old_and_new.sh OLD.a NEW.a [ROUNDS]: two states of the proved library, as ../rust/library.sh writes them (or objects of
# ../compare/native.sh), in one program at the limits: both give the same answers, and the time of each, interleaved, with their quotient.
set -eu
[ $# -ge 2 ] || { echo "old_and_new.sh OLD.a NEW.a [ROUNDS]"; exit 2; }
old=$(realpath "$1") new=$(realpath "$2") rounds=${3:-31}
root=$(cd "$(dirname "$0")/.." && pwd)
out=$root/target/bench
mkdir -p "$out"
set --
for f in $(nm -g --defined-only "$old" | sed -n 's/^.* T //p'); do set -- "$@" --redefine-sym "$f=old_$f"; done
objcopy "$@" "$old" "$out/old-kiosk_c.a"
set -- "$root/bench/old_and_new.c"
for f in city dice network face; do set -- "$@" "$root/compare/$f.c"; done
cc -O3 -o "$out/old_and_new" "$@" "$out/old-kiosk_c.a" "$new"
exec "$out/old_and_new" "$rounds"
