#!/bin/sh
# fuzz.sh SECONDS SEED [FLAGS]: the C face under libFuzzer and the address sanitizer, for so many seconds; FLAGS go to libFuzzer.
# The proved code itself is built for both (native.sh). A bad input is left in target/fuzz, and `target/fuzz/fuzz FILE` runs it again.
# LOG=FILE takes libFuzzer's own lines, of which the last are shown where it found something. KIOSK_LIB=FILE takes an object that was built for
# clang's sanitizers in place of the proved one.
set -eu
[ $# -ge 2 ] || { echo "fuzz.sh SECONDS SEED [FLAGS]"; exit 2; }
seconds=$1 seed=$2
shift 2
lib=${KIOSK_LIB:+$(realpath "$KIOSK_LIB")}
out=$(realpath -m "$(dirname "$0")/../target/fuzz")
corpus=$out/corpus-$seed log=$(realpath -m "${LOG:-$out/log-$seed}")
cd "$(dirname "$0")"
rm -rf "$corpus"
mkdir -p "$corpus"
echo 'int LLVMFuzzerTestOneInput(void) { return 0; }' > "$out/none.c"
clang -fsanitize=address,fuzzer -o "$out/none" "$out/none.c" 2>/dev/null || {
    echo "fuzz.sh: no clang with libFuzzer and the address sanitizer (Debian's clang and libclang-rt-14-dev)"; exit 2; }
[ -n "$lib" ] || { SANITIZE=1 ./native.sh kiosk_c "$out/kiosk_c.o" && lib=$out/kiosk_c.o; }
rm -rf "$out/parts"
mkdir -p "$out/parts"
# without counters of their own: the proved code's are counted
for f in fuzz fuzzing city journeys nasty dice network face ../plain/check ../plain/judge ../plain/search; do
    clang -O1 -g -fsanitize=address -c -o "$out/parts/$(basename $f).o" $f.c
done
clang -fsanitize=address,fuzzer -o "$out/fuzz" "$out"/parts/*.o "$lib"
export ASAN_OPTIONS=detect_leaks=0      # the proved code lets nothing leak, since it takes nothing
for lie in tables room journey; do
    LIE=$lie "$out/fuzz" -runs=0 2>&1 | grep -q 'AddressSanitizer: heap-buffer-overflow' || {
        echo "fuzz.sh: the sanitizer does not see the proved code go past an end ($lie)"; exit 1; }
done
SEEDS=$corpus "$out/fuzz" -max_total_time="$seconds" -seed="$seed" -max_len=70000 -timeout=60 -reload=0 -artifact_prefix="$out/" "$@" \
    "$corpus" 2> "$log" || { tail -n 60 "$log"; exit 1; }
