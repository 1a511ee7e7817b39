#!/bin/sh
# stores.sh COUNT SEED: "Write each leg once" (document 02), counted: the proved search is compiled so that every store is told to a program before it is made,
# and that program counts, for each byte of the journey buffer, how often it is stored to (stores.c). That the counting sees something is tried on five
# wrong writers (stores_wrong.c) that no caller can tell from the proved one: it must notice each, and nothing in one that is right.
set -eu
[ $# -eq 2 ] || { echo "stores.sh COUNT SEED"; exit 2; }
count=$1 seed=$2
cd "$(dirname "$0")"
out=$(realpath -m ../target/compare/stores)
rm -rf "$out"
mkdir -p "$out"
./native.sh kiosk_c ../target/native/kiosk_c.o
clang=$(dirname "$(rt doc)")/toolchain/bin/clang

# told NAME OPTION..: what these options compile, as $out/NAME.o, where each store first calls __sanitizer_cov_store*, and blocks of bytes are set and copied by
# the program's told_mem*.
told() {
    name=$1
    shift
    "$clang" --target=x86_64-unknown-linux-gnu -O3 -fsanitize-coverage=func,trace-pc-guard,trace-stores -S -emit-llvm -o "$out/$name.ll" "$@" 2> "$out/said" || {
        cat "$out/said"; exit 1; }
    stores=$(grep -c '^ *store ' "$out/$name.ll") || true
    seen=$(grep -c 'call void @__sanitizer_cov_store[0-9]*(' "$out/$name.ll") || true
    [ "$stores" -gt 0 ] && [ "$stores" = "$seen" ] || { echo "stores.sh: $name has $stores stores, of which $seen are told"; exit 1; }
    sed -e 's/^declare void @llvm\.mem\(set\)\..*/declare void @told_mem\1(ptr, i8, i64, i1)/' \
        -e 's/^declare void @llvm\.mem\(cpy\|move\)\..*/declare void @told_mem\1(ptr, ptr, i64, i1)/' \
        -e 's/@llvm\.mem\(set\|cpy\|move\)\.[a-z0-9.]*(/@told_mem\1(/' "$out/$name.ll" > "$out/$name.told.ll"
    # what else could write: an instruction for a processor's own stores, an atomic one, a call out of the module
    if grep -q 'atomicrmw\|cmpxchg\|@llvm\.[a-z0-9_.]*\(store\|scatter\|\.st[0-9]\)\|@llvm\.mem\|@mem\(set\|cpy\|move\)(' "$out/$name.told.ll"; then
        echo "stores.sh: $name writes in a way that is not told"; exit 1
    fi
    # as it stands: no pass may make stores of its own
    "$clang" --target=x86_64-unknown-linux-gnu -Wno-override-module -O1 -Xclang -disable-llvm-passes -c -x ir -o "$out/$name.o" "$out/$name.told.ll" 2> "$out/said" || {
        cat "$out/said"; exit 1; }
}
told proved -Wno-override-module -x ir ../target/native/kiosk_c.bc
told wrong -x c -ffreestanding -nostdinc -isystem "$(cc -print-file-name=include)" stores_wrong.c

cc -O2 -o "$out/stores" stores.c nasty.c city.c dice.c network.c lines.c face.c ../plain/search.c ../plain/check.c "$out/proved.o" "$out/wrong.o"
# asked SOLVER HOW_OFTEN: its stores are wrong so often, and no caller sees a difference
asked() {
    "$out/stores" "$1" ../oracle/cases.txt "$count" "$seed" > "$out/$1.out"
    cat "$out/$1.out"
    grep -q "; a store is wrong in $2; a caller sees a difference in 0\$" "$out/$1.out" || { echo "stores.sh: that is not as it must be of '$1'"; exit 1; }
}
asked checked 0
asked checking 0
asked right 0
for wrong in turned moved again early ridden; do asked $wrong '[1-9][0-9]*'; done
