#!/bin/sh
# native.sh CRATE OUT.o: the proved LLVM module of what C links, compiled for this machine. CRATE is kiosk_c or gtfs_c; its exports are in a thin crate
# above it, kiosk_export or gtfs_export, whose archive is what is shipped: it is left as target/staticlib/libCRATE.a, and the module as target/native/CRATE.bc.
# SANITIZE=1 builds it for libFuzzer and the address sanitizer (fuzz.sh): its reads, writes, edges and comparisons are watched.
# Several may run at once: one at a time makes a module, and OUT.o is there whole or not at all.
set -eu
cd "$(dirname "$0")/.."
crate=$1 out=$(cd "$OLDPWD" && realpath -m "$2")
clang=$(dirname "$(rt doc)")/toolchain/bin/clang
module=target/native/$crate.bc
room=$(mktemp -d)
trap 'rm -rf "$room"' EXIT
mkdir -p "$(dirname "$out")"
tools/proved.py archive "${crate%_c}_export" "target/staticlib/lib$crate.a" "$module" 2> "$room/said" || { tail -n 5 "$room/said"; exit 1; }
compile() { "$clang" --target=x86_64-unknown-linux-gnu -Wno-override-module -x ir "$@"; }
if [ "${SANITIZE:-0}" = 0 ]; then
    compile -O3 -c "$module" -o "$room/out.o"
else
    # the sanitizer passes over a function that does not ask for it in the module's own text
    compile -S -emit-llvm -Xclang -disable-llvm-passes "$module" -o "$room/plain.ll"
    sed 's/^\(define .*) \)\(#[0-9]* {\)$/\1sanitize_address \2/' "$room/plain.ll" > "$room/module.ll"
    if grep '^define' "$room/module.ll" | grep -qv ' sanitize_address '; then echo "a function is not marked for the sanitizer"; exit 1; fi
    compile -O1 -fsanitize=address -fsanitize-coverage=inline-8bit-counters,pc-table,trace-cmp -c "$room/module.ll" -o "$room/out.o"
fi
cp "$room/out.o" "$out.$$"
mv "$out.$$" "$out"
