#!/bin/sh
# Makes cases.txt and answers.txt anew: the worked examples, then the generated networks of the fixed seeds.
set -eu
"$(dirname "$0")/build.sh"
cd "$(dirname "$0")"
{
    echo "# Networks and queries; answers.txt has one line for each q line, in this order. make.sh makes both (README.md)."
    ./flatten.py examples.txt
    for seed in 1 2 3 4; do
        echo "# generated, seed $seed"
        ../compare/generate.sh $seed 500 | target/checked/select
    done
} > target/cases.txt
target/checked/oracle target/cases.txt > target/answers.txt
if grep -vqE '^(0 |7$|10$)' target/answers.txt; then echo "an answer that is neither found, 7 nor 10" >&2; exit 1; fi
mv target/cases.txt target/answers.txt .
echo "$(wc -l < answers.txt) cases"
