#!/bin/sh
# Journeys judged by the proved library, beside plain C and Python:
#   judge.sh fuzz COUNT SEED                    COUNT journeys in small nasty networks, as the search writes them and changed
#   judge.sh cities middle|limit COUNT SEED     journeys in COUNT cities of 60 to 200 stops, or at the limits
#   judge.sh kept                               the Rust's kept legs (../oracle), and what our search answers to the same queries
#   judge.sh python COUNT SEED                  COUNT journeys of fuzz, judged by Python too
#   judge.sh wrong COUNT SEED                   plain C with one rule left out, for each rule: fuzz must end in differences
# KIOSK_LIB=FILE takes that archive or object in place of the proved one.
set -eu
[ $# -ge 1 ] || { sed -n 's/^#   //p' "$0"; exit 2; }
lib=${KIOSK_LIB:+$(realpath "$KIOSK_LIB")}
cd "$(dirname "$0")"
out=$(realpath -m ../target/compare)
mkdir -p "$out"
[ -n "$lib" ] || { ./native.sh kiosk_c ../target/native/kiosk_c.o && lib=../target/native/kiosk_c.o; }

parts=$out/judge-parts
rm -rf "$parts"
mkdir -p "$parts"
for f in judge journeys nasty city dice network lines face ../plain/search ../plain/check; do cc -O2 -c -o "$parts/$(basename $f).o" $f.c; done
# build OUT JUDGE.c: the program with this judge in plain C
build() { cc -O2 -I ../plain -o "$1" "$2" "$parts"/*.o "$lib"; }

case $1 in
fuzz | cities | kept)
    build "$out/judge" ../plain/judge.c
    [ "$1" != kept ] || set -- kept ../oracle/cases.txt ../oracle/answers.txt
    exec "$out/judge" "$@"
    ;;
python)
    build "$out/judge" ../plain/judge.c
    room=$(mktemp -d)
    trap 'rm -rf "$room"' EXIT
    mkfifo "$room/lines"
    "$out/judge" lines "$2" "$3" > "$room/lines" &
    status=0
    python3 judge.py < "$room/lines" || status=1
    wait $! || status=1
    exit $status
    ;;
wrong)
    rules=0
    # what the rule is, and what sed makes of its line of plain/judge.c
    while IFS='@' read -r rule change; do
        sed "$change" ../plain/judge.c > "$out/wrong.c"
        ! cmp -s "$out/wrong.c" ../plain/judge.c || { echo "judge.sh: plain/judge.c has no line for: $rule"; exit 1; }
        build "$out/wrong" "$out/wrong.c"
        status=0
        "$out/wrong" fuzz "$2" "$3" > "$out/wrong.out" 2>&1 || status=$?
        # differences, or a page is touched that may not be
        grep -q '; [1-9][0-9]* differ$' "$out/wrong.out" || [ $status -gt 128 ] || { echo "judge.sh: not noticed: $rule"; exit 1; }
        rules=$((rules + 1))
    done <<'END'
a departure journey begins with a ride@s/leg\[KIND\] != RIDE || leg\[LEAVES\] < moment/leg[LEAVES] < moment/
it leaves at the moment or later@s/ || leg\[LEAVES\] < moment))/))/
an arrival journey ends with a ride@s/before\[KIND\] != RIDE || before\[COMES\] > moment/before[COMES] > moment/
it comes at the moment or sooner@s/ || before\[COMES\] > moment))/))/
the first leg leaves an origin@s/if (!stands_for(t, from, .*/;/
the last leg comes to a goal@s/if (!stands_for(t, to, .*/;/
legs join@s/if (leg\[FROM\] != before\[TO\]) return 0;/;/
no leg leaves before the last has come@s/if (leg\[LEAVES\] < before\[COMES\]) return 0;/;/
a leg may leave as the last comes@s/leg\[LEAVES\] < before\[COMES\]/leg[LEAVES] <= before[COMES]/
no more than 15 rides@s/MOST_RIDES = 15/MOST_RIDES = 16/
as many as 15 rides@s/MOST_RIDES = 15/MOST_RIDES = 14/
no legs is a no@s/if (rides == 0) return 0;/if (len == 0) return 1;/
no walk where they are barred@s/if (leg\[KIND\] == WALK && !walking) return 0;/;/
unsaid is allowed@s/walks != BARRED)/walks == 1)/
the trip is in a route@s/if (listed == trips) return 0;/if (listed == trips) return 1;/
the trip's own route@s/route + 1\] <= listed/route + 1] < listed/
the stop where it boards@s/stop\[on\] != leg\[FROM\] || //
the departure there@s/ || time\[TIME_WORDS \* on + 1\] != leg\[LEAVES\]//
the departure, not the arrival@s/time\[TIME_WORDS \* on + 1\] != leg/time[TIME_WORDS * on] != leg/
the stop where it alights@s/stop\[off\] == leg\[TO\] && //
the arrival there@s/ && time\[TIME_WORDS \* off\] == leg\[COMES\]//
the arrival, not the departure@s/time\[TIME_WORDS \* off\] == leg/time[TIME_WORDS * off + 1] == leg/
a later position@s/off = on + 1/off = on/
some position to board at, not the first@s/LEAVES\]) continue;/LEAVES]) { if (stop[on] == leg[FROM]) return 0; continue; }/
some position to alight at, not the first@s/if (stop\[off\] == leg\[TO\] && \(.*\)) return 1;/if (stop[off] == leg[TO]) return \1;/
a footpath lasts its span@s/span == lasts/span <= lasts/
it leads to its stop@s/to == leg\[TO\] && span/span/
no moment runs over@s/ || leg\[COMES\] < leg\[LEAVES\]//
its own kind@s/int transfer = leg\[KIND\] == TRANSFER;/int transfer = rows_of(t, leg[FROM]);/;s/^static int is_footpath/static int rows_of(const uint32_t *t, uint32_t s) { return section_of(t, WALK_STARTS)[s] == section_of(t, WALK_STARTS)[s + 1]; }\n&/
a stated span@s/transfer && row\[2\] != ABSENT ? row\[2\] : //
seconds are raised@s/seconds > (float)below ? below + 1 : below/below/
some listing, not the first@s/if (to == leg\[TO\] && span == lasts) return 1;/if (to == leg[TO]) return span == lasts;/
a stop stands for its station@s/if (parent\[p.number\] != ABSENT) return .*/;/
a station stands for its stops@s/if (children\[p.number\] < .*/;/
an area stands for served stops@s/ || !section_of(t, SERVED)\[stop\]) return 0;/) return 0;/
7 before 8@s/if (!exists(tables, here).*/if (moment < 1) return 8;\n&/
8 before 9@s/if (moment < 1 .*/if (exists(tables, here) \&\& !served(tables, here)) return 9;\n&/
9@s/if (!served(tables, here).*/;/
9 before 13@s/if (!served(tables, here).*/if (journey_len > 0 \&\& get_leg(journey, journey_len, 0, (uint32_t[ROW]){ 0 }) == 13) { told[0] = 0; return 13; }\n&/
13 before a no@s/if (size == 13) .*/if (size == 13 \&\& at > 0 \&\& !is_journey(tables, journey, at, here, there, when == 1, moment, walks != BARRED)) { told[0] = 0; return 0; }\n&/
the offset of a bad leg@s/told\[0\] = at; return 13/told[0] = journey_len; return 13/
END
    echo "$rules rules, each left out of plain C once: all are noticed"
    ;;
*)
    sed -n 's/^#   //p' "$0"
    exit 2
    ;;
esac
