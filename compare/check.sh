#!/bin/sh
# The proved check, built for this machine, beside a plain C one: the same numbers on cities at the limits, past them and damaged.
set -eu
cd "$(dirname "$0")"
mkdir -p ../target/compare
./native.sh kiosk_c ../target/native/kiosk_c.o
cc -O3 -o ../target/compare/check check.c city.c dice.c network.c ../plain/check.c ../target/native/kiosk_c.o
exec ../target/compare/check
