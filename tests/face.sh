#!/bin/sh
# kiosk.h and kiosk_gtfs.h as a stranger meets them: strict C and C++ compilers take them without a warning, and each name, function and
# duty of them is run against the library (tests/face/face.c, tests/face/gtfs.c), compiled as C99 and as C++11. KIOSK_LIB_DIR as in
# rust/library.sh. Where there is no C++ compiler it says so.
set -eu
lib=$("$(dirname "$0")/../rust/library.sh")
cd "$(dirname "$0")/.."
out=$PWD/target/face
mkdir -p "$out"
{ cat examples/N.txt; echo 'area 4  # its stop has no children, so nothing serves it'; } > "$out/N.txt"
python3 tests/face/long.py > "$out/long.txt"
for name in N long; do tools/timetable.py "$out/$name.txt" > "$out/$name.net"; done
for name in M town; do tools/timetable.py "examples/$name.txt" > "$out/$name.net"; done

# the library has no state of its own, and calls nothing but what fills and copies memory
nm "$lib/libkiosk_c.a" "$lib/libgtfs_c.a" | awk '
    NF < 2 || $(NF - 1) ~ /^[nNrRtT]$/ || ($(NF - 1) == "U" && $NF ~ /^mem(set|cpy|move)$/) { next }
    { print "neither code nor a constant of the library: " $0; found = 1 }
    END { exit found }'

# the most bytes of a journey are those of the theorem
proved=$(sed -n 's/.* length_most : .* ≤ \([0-9_]*\)$/\1/p' crates/raptor/proofs/Promises.antt | tr -d _)
grep -q "^#define KIOSK_MOST_JOURNEY $proved\$" crates/kiosk_c/include/kiosk.h || { echo "the theorem says $proved bytes, kiosk.h does not"; exit 1; }

# run COMPILER.. : no warning as the headers stand in programs that use all of them, and then the programs
run() {
    for name in face gtfs; do
        "$@" -O2 -Wall -Wextra -Wconversion -Wsign-conversion -Wshadow -pedantic -Werror -D_POSIX_C_SOURCE=200809L -pthread \
            -I crates/kiosk_c/include -I crates/gtfs_c/include -c -o "$out/$name.o" tests/face/$name.c
        [ "$1" != c++ ] && link=cc || link=c++
        $link -pthread -o "$out/$name" "$out/$name.o" "$lib/libkiosk_c.a" "$lib/libgtfs_c.a"
    done
    echo "$*:"
    "$out/face" "$out/N.net" "$out/M.net" "$out/town.net" "$out/long.net"
    "$out/gtfs" examples/feed
}

run cc -std=c99
if command -v c++ > /dev/null; then
    run c++ -x c++ -std=c++11
else
    echo "there is no C++ compiler: kiosk.h is not tried as C++"
fi

# a program that uses none of them: every standard that the compilers at hand know
printf '#include "kiosk.h"\n#include "kiosk_gtfs.h"\n' > "$out/alone.c"
for by in "cc -x c" "c++ -x c++" "clang -x c" "clang++ -x c++"; do
    command -v "${by%% *}" > /dev/null || continue
    case $by in *++) all='c++11 c++14 c++17 c++20' ;; *) all='c99 c11 c17' ;; esac
    for standard in $all; do
        $by -std=$standard -Wall -Wextra -Wconversion -Wshadow -pedantic -Werror -I crates/kiosk_c/include -I crates/gtfs_c/include \
            -fsyntax-only "$out/alone.c"
    done
    echo "kiosk.h and kiosk_gtfs.h by ${by%% *}: $all"
done
