#!/bin/sh
# Imports the source's Rust into target/blaise (never kept in the repository), with the marks refilled into target/rescan, and builds the
# programs of this folder.
# BLAISE names the folder that holds src/raptor: a checkout of vincbro/blaise at a8db8932f7, or a folder with the twelve files.
set -eu
given=${BLAISE:-}
[ -z "$given" ] || given=$(cd "$given" && pwd)
cd "$(dirname "$0")"
from=${given:-../../shared/docs/src}/src
[ -f "$from/raptor/mod.rs" ] || { echo "no src/raptor/mod.rs in ${given:-../../shared/docs/src}: set BLAISE" >&2; exit 2; }
to=target/blaise refilled=target/rescan new=target/new.$$     # several may run at once
mkdir -p $to/raptor $to/repository $to/shared $refilled/raptor

# A file is written only where it differs, so that an unchanged one is not compiled again.
put() {
    if cmp -s $new "$1"; then rm $new; else mv $new "$1"; fi
}
for f in raptor/allocator raptor/discovery raptor/explorer raptor/itinerary raptor/location raptor/mod raptor/path raptor/state \
    repository/entities repository/mod shared/time; do
    cp "$from/$f.rs" $new
    put $to/$f.rs
done
for f in allocator discovery explorer itinerary location path state; do
    cp "$from/raptor/$f.rs" $new
    put $refilled/raptor/$f.rs
done

# insert FILE AFTER LINE FOLDER: the file with LINE inserted after the line AFTER. An error where exactly this one line was not inserted.
insert() {
    AFTER=$2 LINE=$3 awk '{ print } $0 == ENVIRON["AFTER"] { print ENVIRON["LINE"] }' "$from/$1.rs" > $new
    [ "$(diff "$from/$1.rs" $new | grep '^[<>]')" = "> $3" ] || { echo "not exactly this line was inserted in $1.rs:$3" >&2; exit 1; }
    put "$4/$1.rs"
}
# The one change of both: network_distance asks for the lent distance first.
insert shared/geo '    pub fn network_distance(&self, coord: &Self) -> Distance {' \
    '        if let Some(d) = crate::lent::distance(self.latitude, coord.latitude) { return Distance(d); }' $to
# The one change of the second: the route marks are refilled before every round, where the source has such a line as a comment.
insert raptor/mod '            // allocator.active.fill(u32::MAX);' \
    '            allocator.active.fill(if let TimeConstraint::Arrival(_) = self.time_constraint { u32::MIN } else { u32::MAX });' $refilled

# The source's loader is not among the files; the module that it would be leads to ours.
cat > $new <<'END'
// Leads to the stand-in for the source's loader.
#[path = "../../../src/tables.rs"]
mod tables;
pub use tables::*;
END
put $to/repository/source.rs

cargo build --quiet --offline --profile checked --target-dir target
