#!/bin/sh
# Measures anew and writes the tables of search.sh and gtfs.sh between their marks in docs/BENCHMARKS.md. A table that was not made stays as it
# is, and so do those of other processors.
set -eu
folder=$(dirname "$0")
page=$folder/../docs/BENCHMARKS.md
made=$(mktemp)
trap 'rm -f "$made"' EXIT
"$folder/search.sh" > "$made"
"$folder/gtfs.sh" >> "$made"
new=$(awk -v made="$made" '
    BEGIN {
        while ((getline line < made) > 0) {
            if (line == "<!-- end -->") mark = ""
            else if (line ~ /^<!-- [a-z]+ [a-z0-9_]+ -->$/) mark = line
            else if (mark != "") table[mark] = table[mark] line "\n"
        }
    }
    $0 == "<!-- end -->" { passing = 0 }
    !passing { print }
    $0 in table { printf "%s", table[$0]; passing = 1 }' "$page")
printf '%s\n' "$new" > "$page"
