#!/bin/sh
# generate.sh SEED COUNT: COUNT small nasty networks with queries, in the form of ../oracle/cases.txt.
set -eu
cd "$(dirname "$0")"
mkdir -p ../target/compare
cc -O2 -o ../target/compare/generate generate.c nasty.c lines.c dice.c network.c face.c ../plain/search.c
exec ../target/compare/generate "$@"
