#!/bin/sh
# The proved feed reader and writer, built for this machine, beside others:
#   gtfs.sh python COUNT SEED [PROCESSES]   COUNT small pairs of files and one of 262,144 rows, beside a reader over Python's csv
#   gtfs.sh damage COUNT SEED               COUNT small damaged pairs, and the limits, beside plain C; each slice against a forbidden page
#   gtfs.sh fuzz SECONDS SEED [FLAGS]       the same led by coverage, under libFuzzer and the address sanitizer; FLAGS go to libFuzzer
# GTFS_LIB=FILE takes that archive or object in place of the proved one; for fuzz it is one that was built for clang's sanitizers. A bad
# input of fuzz is left in target/fuzz, and `target/fuzz/gtfs_fuzz FILE` runs it again. LOG=FILE takes libFuzzer's own lines.
set -eu
[ $# -ge 3 ] || { sed -n 's/^#   //p' "$0"; exit 2; }
what=$1 count=$2 seed=$3
shift 3
lib=${GTFS_LIB:+$(realpath "$GTFS_LIB")}
cd "$(dirname "$0")"
out=$(realpath -m ../target/compare)
mkdir -p "$out"
# library OUT.o: ours, unless another was named
library() {
    [ -n "$lib" ] || { ./native.sh gtfs_c "$1" && lib=$1; }
}

case $what in
python)
    library ../target/native/gtfs_c.o
    cc -O2 -o "$out/gtfs_pairs" gtfs_pairs.c "$lib"
    exec python3 gtfs.py "$out/gtfs_pairs" "$count" "$seed" "$@"
    ;;
damage)
    library ../target/native/gtfs_c.o
    cc -O2 -o "$out/gtfs_damage" gtfs_damage.c gtfs_try.c feeds.c dice.c ../plain/gtfs.c "$lib"
    exec "$out/gtfs_damage" "$count" "$seed"
    ;;
fuzz)
    out=$(realpath -m ../target/fuzz)
    corpus=$out/gtfs-corpus-$seed log=$(realpath -m "${LOG:-$out/gtfs-log-$seed}")
    rm -rf "$corpus" "$out/gtfs-parts"
    mkdir -p "$corpus" "$out/gtfs-parts"
    echo 'int LLVMFuzzerTestOneInput(void) { return 0; }' > "$out/none.c"
    clang -fsanitize=address,fuzzer -o "$out/none" "$out/none.c" 2>/dev/null || {
        echo "gtfs.sh: no clang with libFuzzer and the address sanitizer (Debian's clang and libclang-rt-14-dev)"; exit 2; }
    [ -n "$lib" ] || { SANITIZE=1 ./native.sh gtfs_c "$out/gtfs_c.o" && lib=$out/gtfs_c.o; }
    for f in gtfs_fuzz fuzzing gtfs_try feeds dice ../plain/gtfs; do       # without counters of their own: the proved code's are counted
        clang -O1 -g -fsanitize=address -c -o "$out/gtfs-parts/$(basename $f).o" $f.c
    done
    clang -fsanitize=address,fuzzer -o "$out/gtfs_fuzz" "$out"/gtfs-parts/*.o "$lib"
    export ASAN_OPTIONS=detect_leaks=0      # the proved code lets nothing leak, since it takes nothing
    for lie in file rows; do
        LIE=$lie "$out/gtfs_fuzz" -runs=0 2>&1 | grep -q 'AddressSanitizer: heap-buffer-overflow' || {
            echo "gtfs.sh: the sanitizer does not see the proved code go past an end ($lie)"; exit 1; }
    done
    SEEDS=$corpus "$out/gtfs_fuzz" -max_total_time="$count" -seed="$seed" -max_len=20000 -timeout=60 -reload=0 \
        -artifact_prefix="$out/" "$@" "$corpus" 2> "$log" || { tail -n 60 "$log"; exit 1; }
    ;;
*)
    sed -n 's/^#   //p' "$0"
    exit 2
    ;;
esac
