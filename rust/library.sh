#!/bin/sh
# Builds libkiosk_c.a and libgtfs_c.a, as they are shipped, and prints the folder that they stand in. Where KIOSK_LIB_DIR names a folder with the
# archives, nothing is built and that folder is printed.
set -eu
if [ -n "${KIOSK_LIB_DIR:-}" ]; then
    cd "$KIOSK_LIB_DIR" && pwd
    exit
fi
cd "$(dirname "$0")/.."
for crate in kiosk_c gtfs_c; do
    tools/proved.py archive "${crate%_c}_export" "target/staticlib/lib$crate.a" "target/native/$crate.bc" >&2
done
echo "$PWD/target/staticlib"
