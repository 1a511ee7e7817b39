#!/bin/sh
# The program `checkjourney` held to a table: right journeys and each way to be wrong, bytes that are no legs, refusals, bad arguments, too many
# bytes. Then the script `./checkjourney`: its exit status and its streams, and what `./kiosk .. bytes` writes is judged in a pipe.
set -eu
cd "$(dirname "$0")/.."
root=$(pwd)
for program in checkjourney kiosk; do tools/build.sh $program 2>/dev/null || tools/build.sh $program || exit 1; done
room=$(mktemp -d)
trap 'rm -rf "$room"' EXIT
cd "$room"

# ---- journey bytes: ride FROM TO TRIP DEPARTURE ARRIVAL, transfer and walk FROM TO DEPARTURE ARRIVAL, with fields below 65,536
fields() { for f; do printf "\\$(printf %03o $((f % 256)))\\$(printf %03o $((f / 256)))\\000\\000"; done; }
ride() { printf '\001'; fields "$@"; }
transfer() { printf '\002'; fields "$@"; }
walk() { printf '\003'; fields "$@"; }
{ ride 0 2 0 100 300; transfer 2 3 300 330; ride 3 4 2 350 450; } >n1
: >none
ride 3 4 2 350 450 >last_leg
{ ride 0 2 0 100 300; transfer 2 3 300 330; } >first_two
{ transfer 2 3 300 330; ride 3 4 2 350 450; } >transfer_first
{ ride 0 2 0 100 300; transfer 2 3 300 331; ride 3 4 2 350 450; } >longer_footpath
{ ride 0 2 0 100 300; walk 2 3 300 330; ride 3 4 2 350 450; } >transfer_walked
{ ride 0 2 0 100 300; transfer 2 3 320 350; ride 3 4 2 350 450; } >waited
{ ride 0 2 0 100 300; transfer 2 3 321 351; ride 3 4 2 350 450; } >missed
{ ride 0 2 0 100 300; transfer 2 3 300 330; ride 3 4 2 650 750; } >other_trips_times
{ ride 0 2 0 100 300; transfer 2 3 300 330; ride 3 4 3 650 750; } >later_trip
{ ride 0 2 9 100 300; transfer 2 3 300 330; ride 3 4 2 350 450; } >trip_9
{ ride 0 1 0 100 300; transfer 2 3 300 330; ride 3 4 2 350 450; } >goes_to_1
{ ride 0 1 0 100 200; ride 1 2 0 210 300; transfer 2 3 300 330; ride 3 4 2 350 450; } >changes_on_board
{ ride 3 4 2 350 450; ride 0 2 0 100 300; transfer 2 3 300 330; } >last_leg_first
{ cat n1; printf '\011'; fields 1 2 3 4 5; } >kind_9
head -c 58 n1 >cut
head -c 38 n1 | cat - last_leg last_leg >ride_twice
ride 0 2 0 100 300 >to_2
{ ride 0 1 0 5 9; walk 1 2 9 11; } >walked
{ ride 0 1 0 5 9; walk 1 2 9 10; } >walked_fast
# 32,768 bytes are 1,560 rides and a walk short of one byte: legs or not, they are all read
awk 'BEGIN { for (i = 0; i < 32768; i++) printf "\004" }' >most
awk 'BEGIN { for (i = 0; i < 32769; i++) printf "\004" }' >too_many
# whole legs, 32,742 bytes of them: N1's journey and what does not follow
{ cat n1; python3 -c 'import sys; sys.stdout.buffer.write(open("last_leg", "rb").read() * 1556)'; } >long

# ---- tables: as tests/kiosk.sh has them
under() { awk -v c="# $1" '$0 == c { getline; print; exit }' "$root/crates/checktables/stdin"; }
under 'N with a station, two areas and a walk' >areas
under 'a route without a stop' >bad1
under 'a served mark left unset' >bad2
under 'N with a first moment of 0' >bad3
under 'and an arrival one second sooner' >bad4
under 'N with a distance of NaN' >bad5
awk '{ $($20 + 2) = 0; print }' areas >unserved
echo net 21 24 27 31 31 35 41 44 48 48 52 56 58 60 62 63 65 69 70 70 72 0 1 2 4294967295 4294967295 4294967295 0 0 0 0 0 1 2 2 0 0 0 0 1 1 1 \
    1 0 0 0 0 0 0 0 1 2 2 1070386381 1 1070386381 0 2 0 1 0 1 0 0 2 5 5 9 9 0 0 0 >walk
"$root/tools/timetable.py" "$root/examples/N.txt" >n
awk '{ for (i = $18 + 2; i <= $19 + 1; i++) $i += 450; print }' n >n450
{ ride 0 2 0 550 750; transfer 2 3 750 780; ride 3 4 2 800 900; } >n450_bytes
awk 'BEGIN { for (i = 0; i < 6145; i++) print 0 }' >words6145
usage='usage: checkjourney FROM TO depart|arrive MOMENT [walks:yes|walks:no] [tables:FILE] [midnight:SECONDS] [mode:source|mode:rescan] [bytes]'

# `> `, the file of the bytes and the arguments, then what is to be printed
cat >table <<END
> n1 0 4 depart 50
yes
> n1 0 4 depart 0:01:40
yes
> n1 0 4 depart 101
no
> n1 0 4 depart 50 walks:no
yes
> n1 0 4 depart 50 mode:rescan bytes
yes
> n1 1 4 depart 50
no
> n1 0 3 depart 50
no
> later_trip 0 4 depart 50
yes
> changes_on_board 0 4 depart 50
yes
> waited 0 4 depart 50
yes
> missed 0 4 depart 50
no
> last_leg 0 4 depart 50
no
> last_leg 3 4 depart 50
yes
> first_two 0 4 depart 50
no
> first_two 0 3 depart 50
yes
> transfer_first 2 4 depart 50
no
> transfer_first 0 4 depart 50
no
> last_leg_first 0 4 depart 50
no
> longer_footpath 0 4 depart 50
no
> transfer_walked 0 4 depart 50
no
> other_trips_times 0 4 depart 50
no
> trip_9 0 4 depart 50
no
> goes_to_1 0 4 depart 50
no
> ride_twice 0 4 depart 50
no
> none 0 4 depart 50
no
> long 0 4 depart 50
no
> kind_9 0 4 depart 50
bad 59
> kind_9 0 4 depart 101
bad 59
> cut 0 4 depart 50
bad 38
> most 0 4 depart 50
bad 0
> too_many 0 4 depart 50
the input has more than 32768 bytes, and this program has no room for more: link the library (see README)
> n1 0 4 arrive 450
yes
> n1 0 4 arrive 449
no
> transfer_first 2 4 arrive 450
yes
> first_two 0 3 arrive 450
no
> none 0 4 arrive 450
no
> walked 0 2 depart 1 tables:walk
yes
> walked 0 2 depart 1 tables:walk walks:no
no
> walked_fast 0 2 depart 1 tables:walk
no
> to_2 0 area:0 depart 50 tables:areas
no
> first_two 0 area:0 depart 50 tables:areas
yes
> last_leg area:1 area:0 depart 50 tables:areas
yes
> n450_bytes 0 4 depart 0 tables:n450 midnight:550
yes
> n450_bytes 0 4 depart 1 tables:n450 midnight:550
no
> n1 9 4 depart 50
7: a stop or area that does not exist: FROM is stop 9, and the tables have stops 0 to 4 and no areas
> kind_9 0 area:0 depart 50
7: a stop or area that does not exist: TO is area 0, and the tables have stops 0 to 4 and no areas
> n1 0 4 depart 0
8: query moment outside 1 to 1,000,000
> n1 0 4 depart 277:46:40 midnight:1
8: query moment outside 1 to 1,000,000, with the 1 seconds of midnight
> n1 9 4 depart 0
7: a stop or area that does not exist: FROM is stop 9, and the tables have stops 0 to 4 and no areas
> n1 0 area:0 depart 50 tables:unserved
9: an area without a served stop
> n1 0 4 depart 50 tables:bad1
1: a count over its limit, a route without a stop, a slice of wrong length
tools/fault.py bad1 says where
> n1 0 4 depart 50 tables:bad2
2: an index out of range, or a list breaking a listing rule
tools/fault.py bad2 says where
> kind_9 9 4 depart 0 tables:bad3
3: a timetable moment outside 1 to 1,000,000; arrival after departure at a position; departure after the next position's arrival
tools/fault.py bad3 says where
> n1 0 4 depart 50 tables:bad4
4: trips of a route out of order
tools/fault.py bad4 says where
> n1 0 4 depart 50 tables:bad5
5: a distance that is NaN, below 0 or above 100,000; a stated transfer span above 86,400
tools/fault.py bad5 says where
> n1 0 4 depart 50 tables:nowhere
tables: nowhere cannot be read
> n1 0 4 depart 50 tables:words6145
tables: words6145 has more than 6144 words, and this program has no room for more: link the library (see README)
> . 0 4 depart 50
the input cannot be read
> n1
FROM: is not given
$usage
> n1 0 4 leave 50
depart|arrive: leave is neither: depart at MOMENT, or arrive by it
$usage
> n1 0 4 depart 7:30
MOMENT: 7:30 is no moment: give seconds, or H:MM:SS
$usage
> n1 0 4 depart 50 draw
option: draw is no option: there are walks, mode, tables, midnight and bytes
$usage
> n1 0 4 depart 50 tables:n tables:n
option: tables:n: tables is given twice, and may be given once
$usage
> n1 --help
$usage
END

while IFS= read -r line; do
    case $line in
    '>'*)
        printf '%s\n' "$line"
        eval "set -- ${line#>}"
        bytes=$1
        shift
        "$root/tests/run.sh" checkjourney "$@" <"$bytes"
        ;;
    esac
done <table >printed
if ! diff table printed; then
    echo "checkjourney: what it printed (>) is not the table's (<)"
    exit 1
fi

# ---- the script: sent BYTES STATUS STREAM ARG..
script=$root/checkjourney
. "$root/tests/asked.sh"
sent() {
    input=$1
    shift
    asked "$@"
}
sent n1 0 output 0 4 depart 50
says yes
sent n1 1 output 0 4 depart 101
says no
sent kind_9 1 error 0 4 depart 50
says 'bad 59'
sent n1 1 error 9 4 depart 50
sent n1 1 error 0 4 depart 0
says '8: query moment outside 1 to 1,000,000'
sent n1 1 error 0 4 depart 50 tables:bad2
sent n1 1 error 0 4 depart 50 tables:nowhere
sent too_many 1 error 0 4 depart 50
sent n1 2 error 0 4 depart 50 fast
says "$usage"
sent n1 2 error 0 4
says 'depart|arrive: is not given'
sent n1 2 error
sent n1 0 output --help
says "$usage"

# ---- what the search writes gets a yes, in a pipe and with the same arguments: judged YES|NO ARG..
judged() {
    wanted=$1
    shift
    "$root/kiosk" "$@" bytes >written || { echo "./kiosk $* bytes: no journey"; exit 1; }
    verdict=$("$root/checkjourney" "$@" <written) || [ "$wanted" = no ]
    [ "$verdict" = "$wanted" ] || { echo "./kiosk $* bytes, then ./checkjourney $*: $verdict, and $wanted was expected"; exit 1; }
    asks=$((asks + 1))
}
judged yes 0 4 depart 50
cmp written n1
judged yes 0 4 depart 0:01:41
judged yes 0 2 arrive 600
judged yes 0 2 depart 1 tables:walk
judged yes 0 area:0 depart 50 tables:areas
judged yes area:1 area:0 depart 50 tables:areas mode:rescan
judged yes 0 4 depart 0 tables:n450 midnight:500
[ "$("$root/kiosk" 0 4 depart 50 bytes | "$root/checkjourney" 0 4 depart 50)" = yes ] || { echo './kiosk .. bytes | ./checkjourney ..: no yes'; exit 1; }
# no journey: `kiosk` says why, as without `bytes`, and no byte is written
ended=0
"$root/kiosk" 0 4 depart 401 bytes >output 2>said || ended=$?
says '10: no route found; a journey that departs begins with a ride, and a walk alone is none'
[ $ended -eq 1 ] && [ ! -s output ] || { echo "./kiosk 0 4 depart 401 bytes: status $ended"; exit 1; }
echo "checkjourney: $(grep -c '^>' table) runs printed what the table has; $asks times the scripts gave their status and what was right"
