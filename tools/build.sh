#!/bin/sh
# build.sh NAME: proves and builds a program as far as it has changed since the last time. Each crate is said as it comes, on the error stream;
# what did not change is not. Two programs that are asked at once, as in a pipe, wait for one another: they would write the same files.
exec python3 "$(dirname "$0")/proved.py" program "$1" </dev/null
