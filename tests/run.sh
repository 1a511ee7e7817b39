#!/bin/sh
# run.sh NAME ARG..: runs a built program, where it is asked. Programs are for x86-64, as the kit is.
set -eu
program=$(cd "$(dirname "$0")/.." && pwd)/crates/$1/out/$1
shift
exec "$program" "$@"
