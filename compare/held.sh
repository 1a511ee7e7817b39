#!/bin/sh
# The lists that are kept, held to what makes them: the networks and queries of oracle/cases.txt to the seeds that they are drawn from; the list that
# the program `replay` is run on to them, and what it must print to plain C. The Rust is not asked: oracle/replay.sh does. And the names and limits of
# plain/tables.h, held to those of the proved code.
set -eu
cd "$(dirname "$0")/.."
out=target/compare list=crates/replay
mkdir -p $out
compare/generate.sh 0 0                 # builds it
for seed in $(sed -n 's/^# generated, seed //p' oracle/cases.txt); do
    echo "# generated, seed $seed"
    $out/generate "$seed" 500
done > $out/generated
awk '
    /^#/ { seed = $0 }
    /^net / { net = seed $0 }
    !/^q / { next }
    FILENAME ~ /generated$/ { made[net $0]; next }
    seed ~ /generated/ { n++; if (!(net $0 in made)) { print "not made by its seed (" seed "): " $0; wrong = 1 } }
    END { print n + 0 " queries of the kept list are asked in the networks that its seeds make"; exit wrong || n == 0 }
' $out/generated oracle/cases.txt

# its first part is written by hand; then come the worked examples in rescan mode, and the whole kept list
{
    sed '/^# the worked examples in the rescan mode$/q' $list/stdin
    sed '/^# generated/,$d; /^#/d; s/^q .*/& r/' oracle/cases.txt
    echo "# the Rust's kept answers"
    cat oracle/cases.txt
} | cmp - $list/stdin
tail -n "$(wc -l < oracle/answers.txt)" $list/stdout | cmp - oracle/answers.txt
cc -O2 -o $out/replay compare/replay.c compare/lines.c compare/face.c plain/search.c plain/check.c
$out/replay $list/stdin | cmp - $list/stdout
echo "$list: its list is made of the kept one, and plain C gives its $(wc -l < $list/stdout) lines"

# each constant of the layout that plain C has too
sed -n 's/^pub const \([A-Z_]*\): [a-z0-9]* = \([0-9_]*\);$/\1 \2/p' crates/repository/src/sections.rt crates/repository/src/limits.rt |
    while read -r name value; do
        ! grep -qw "$name" plain/tables.h || echo "_Static_assert($name == $(echo "$value" | tr -d _), \"$name\");"
    done > $out/layout.c
[ "$(wc -l < $out/layout.c)" -ge 39 ] || { echo "plain/tables.h has other names than crates/repository/src"; exit 1; }
cc -fsyntax-only -include plain/tables.h $out/layout.c
echo "plain/tables.h: $(wc -l < $out/layout.c) names and limits are those of crates/repository"
