#!/bin/sh
# damage.sh COUNT SEED: damaged tables, queries, workspaces and buffers through the C face; nothing past a slice may be touched.
set -eu
cd "$(dirname "$0")"
mkdir -p ../target/compare
./native.sh kiosk_c ../target/native/kiosk_c.o
cc -O2 -o ../target/compare/damage damage.c nasty.c dice.c network.c face.c ../plain/check.c ../target/native/kiosk_c.o
exec ../target/compare/damage "$@"
