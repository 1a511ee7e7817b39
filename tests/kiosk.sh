#!/bin/sh
# The program `kiosk` held to a table: each option, each bad argument, files of tables, each refusal that a query can meet. Then the script
# `./kiosk`: its exit status and its streams for each kind of answer, from any folder, through a link, with what `rt` says.
set -eu
cd "$(dirname "$0")/.."
root=$(pwd)
for program in kiosk showlegs; do tools/build.sh $program 2>/dev/null || tools/build.sh $program || exit 1; done
room=$(mktemp -d)
trap 'rm -rf "$room"' EXIT
cd "$room"

# the tables under a comment of a list: N, M and damaged copies of N stand in the list that `checktables` is run on
under() { awk -v c="# $1" '$0 == c { getline; print; exit }' "$root/crates/checktables/stdin"; }
under M >m
under 'N with a station, two areas and a walk' >areas
under '128 positions in a route' >stops129
under '1,024 routes' >routes1024
under 'a route without a stop' >bad1
under 'N in the layout before, of 20 words of header' >layout20
under 'a served mark left unset' >bad2
under 'a trip at the place of another in its route' >standing
under 'N with a first moment of 0' >bad3
under 'and an arrival one second sooner' >bad4
under 'N with a distance of NaN' >bad5
# area 0 names stop 0, which has no children: word 18 says where the stops of the areas begin
awk '{ $($20 + 2) = 0; print }' areas >unserved
# N with the transfer 3 to 2 listed too (N9)
awk '$0 == "# network N9" { getline; print; exit }' "$root/oracle/cases.txt" >n9
# one route over stops 0 and 1, and a walk between stops 1 and 2
echo net 21 24 27 31 31 35 41 44 48 48 52 56 58 60 62 63 65 69 70 70 72 0 1 2 4294967295 4294967295 4294967295 0 0 0 0 0 1 2 2 0 0 0 0 1 1 1 \
    1 0 0 0 0 0 0 0 1 2 2 1070386381 1 1070386381 0 2 0 1 0 1 0 0 2 5 5 9 9 0 0 0 >walk
# M with no `net`, its words over many lines, each end of a line two bytes, and no end behind the last word
cut -d' ' -f2- m | tr ' ' '\n' | sed 's/$/\r/' | awk 'NR > 1 { printf "\n" } { printf "%s", $0 }' >lines
# one stop and one area
echo net 21 22 23 25 25 27 27 28 30 30 32 32 33 33 34 34 35 35 37 38 38 0 4294967295 0 0 0 0 0 0 0 0 0 0 0 0 0 1 0 >stop1
cp "$root/examples/N.txt" timetable
# N and the town with seconds added to every moment: words 16 and 17 say where the moments begin and end
moved() { awk -v d="$1" '{ for (i = $18 + 2; i <= $19 + 1; i++) $i += d; print }' "$2"; }
"$root/tools/timetable.py" "$root/examples/N.txt" >n
"$root/tools/timetable.py" "$root/examples/town.txt" >town
moved 86400 town >town86400
moved 450 n >n450
moved 172800 n >n172800
echo 21 26 x >letter
echo 21 26 -1 >minus
echo 21 net 26 >late
echo nets 21 26 >nets
echo n 21 26 >short
echo 21 4294967296 >large
echo 21 99999999999999999999999999 >larger
awk 'BEGIN { for (i = 0; i < 6144; i++) print 0 }' >words6144
awk 'BEGIN { for (i = 0; i < 6145; i++) print 0 }' >words6145
: >empty
long=$(awk 'BEGIN { for (i = 0; i < 1024; i++) printf 0 }')
usage='usage: kiosk FROM TO depart|arrive MOMENT [walks:yes|walks:no] [mode:source|mode:rescan] [tables:FILE] [midnight:SECONDS] [bytes]'
departs='10: no route found; a journey that departs begins with a ride, and a walk alone is none'
arrives='10: no route found; a journey that arrives ends with a ride, and a walk alone is none'

# `> ` and the arguments, then what is to be printed
cat >table <<END
> 0 4 depart 50
Leave stop 0 at 0:01:40, arrive at stop 4 at 0:07:30: 2 rides, round 1.
ride trip 0 from stop 0 at 0:01:40 to stop 2 at 0:05:00
transfer from stop 2 at 0:05:00 to stop 3 at 0:05:30
ride trip 2 from stop 3 at 0:05:50 to stop 4 at 0:07:30
> 0 4 depart 0:01:41
Leave stop 0 at 0:06:40, arrive at stop 4 at 0:12:30: 2 rides, round 1.
ride trip 1 from stop 0 at 0:06:40 to stop 2 at 0:10:00
transfer from stop 2 at 0:10:00 to stop 3 at 0:10:30
ride trip 3 from stop 3 at 0:10:50 to stop 4 at 0:12:30
> 0 4 depart 401
$departs
> 1 2 depart 205
Leave stop 1 at 0:08:30, arrive at stop 2 at 0:10:00: 1 ride, round 0.
ride trip 1 from stop 1 at 0:08:30 to stop 2 at 0:10:00
> 0 4 arrive 450
$arrives
> 0 4 arrive 450 tables:n9
Leave stop 0 at 0:01:40, arrive at stop 4 at 0:07:30: 2 rides, round 1.
ride trip 0 from stop 0 at 0:01:40 to stop 2 at 0:05:00
transfer from stop 2 at 0:05:20 to stop 3 at 0:05:50
ride trip 2 from stop 3 at 0:05:50 to stop 4 at 0:07:30
> 0 2 arrive 000:10:00
Leave stop 0 at 0:06:40, arrive at stop 2 at 0:10:00: 1 ride, round 0.
ride trip 1 from stop 0 at 0:06:40 to stop 2 at 0:10:00
> 0 2 depart 120 tables:m
$departs
> 0 2 depart 120 mode:source tables:m
$departs
> 0 2 depart 120 mode:rescan tables:m
Leave stop 0 at 0:02:30, arrive at stop 2 at 0:06:40: 2 rides, round 1.
ride trip 1 from stop 0 at 0:02:30 to stop 1 at 0:03:20
ride trip 0 from stop 1 at 0:05:00 to stop 2 at 0:06:40
> 0 2 depart 120 tables:lines mode:rescan
Leave stop 0 at 0:02:30, arrive at stop 2 at 0:06:40: 2 rides, round 1.
ride trip 1 from stop 0 at 0:02:30 to stop 1 at 0:03:20
ride trip 0 from stop 1 at 0:05:00 to stop 2 at 0:06:40
> 0 2 depart 1 tables:walk
Leave stop 0 at 0:00:05, arrive at stop 2 at 0:00:11: 1 ride, round 0.
ride trip 0 from stop 0 at 0:00:05 to stop 1 at 0:00:09
walk from stop 1 at 0:00:09 to stop 2 at 0:00:11
> 0 2 depart 1 walks:yes mode:source tables:walk
Leave stop 0 at 0:00:05, arrive at stop 2 at 0:00:11: 1 ride, round 0.
ride trip 0 from stop 0 at 0:00:05 to stop 1 at 0:00:09
walk from stop 1 at 0:00:09 to stop 2 at 0:00:11
> 0 2 depart 1 tables:walk walks:no
$departs
> 0 area:0 depart 50 tables:areas
Leave stop 0 at 0:01:40, arrive at stop 3 at 0:05:30: 1 ride, round 0.
To area 0: stops 3 and 4.
ride trip 0 from stop 0 at 0:01:40 to stop 2 at 0:05:00
transfer from stop 2 at 0:05:00 to stop 3 at 0:05:30
> area:1 area:0 depart 50 tables:areas
Leave stop 3 at 0:05:50, arrive at stop 4 at 0:07:30: 1 ride, round 0.
From area 1: stops 3 and 4.
To area 0: stops 3 and 4.
ride trip 2 from stop 3 at 0:05:50 to stop 4 at 0:07:30
> 0 4 depart 50 tables:bad1
1: a count over its limit, a route without a stop, a slice of wrong length
tools/fault.py bad1 says where
> 0 4 depart 50 tables:layout20
1: a count over its limit, a route without a stop, a slice of wrong length
tools/fault.py layout20 says where
> 0 4 depart 50 tables:empty
1: a count over its limit, a route without a stop, a slice of wrong length
tools/fault.py empty says where
> 0 4 depart 50 tables:words6144
1: a count over its limit, a route without a stop, a slice of wrong length
tools/fault.py words6144 says where
> 0 4 depart 50 tables:bad2
2: an index out of range, or a list breaking a listing rule
tools/fault.py bad2 says where
> 0 4 depart 50 tables:standing
2: an index out of range, or a list breaking a listing rule
tools/fault.py standing says where
> 0 4 depart 50 tables:bad3
3: a timetable moment outside 1 to 1,000,000; arrival after departure at a position; departure after the next position's arrival
tools/fault.py bad3 says where
> 0 4 depart 50 tables:bad4
4: trips of a route out of order
tools/fault.py bad4 says where
> 0 4 depart 50 tables:bad5
5: a distance that is NaN, below 0 or above 100,000; a stated transfer span above 86,400
tools/fault.py bad5 says where
> 5 4 depart 50
7: a stop or area that does not exist: FROM is stop 5, and the tables have stops 0 to 4 and no areas
> 0 area:0 depart 50
7: a stop or area that does not exist: TO is area 0, and the tables have stops 0 to 4 and no areas
> 5 area:0 depart 50
7: a stop or area that does not exist: FROM is stop 5, and the tables have stops 0 to 4 and no areas
> 0 4294967295 depart 50
7: a stop or area that does not exist: TO is stop 4294967295, and the tables have stops 0 to 4 and no areas
> 0 area:2 depart 50 tables:areas
7: a stop or area that does not exist: TO is area 2, and the tables have stops 0 to 4 and areas 0 to 1
> 0 1 depart 50 tables:stop1
7: a stop or area that does not exist: TO is stop 1, and the tables have stop 0 and area 0
> 0 4 depart 0
8: query moment outside 1 to 1,000,000
> 0 4 depart 277:46:40
$departs
> 0 4 depart 277:46:41
8: query moment outside 1 to 1,000,000
> 0 4 depart 1193046:28:15
8: query moment outside 1 to 1,000,000
> 0 area:0 depart 50 tables:unserved
9: an area without a served stop
> 0 4 depart 25:10:00
$departs
> 0 4 depart 50 tables:stops129
these tables need more room than this program has: link the library (see README)
> 0 4 depart 50 tables:words6145
tables: words6145 has more than 6144 words, and this program has no room for more: link the library (see README)
> 0 4 depart 50 tables:routes1024
tables: routes1024 has more than 6144 words, and this program has no room for more: link the library (see README)
> 0 4 depart 50 tables:nowhere
tables: nowhere cannot be read
> 0 4 depart 50 tables:.
tables: . cannot be read
> 0 4 depart 50 tables:timetable
tables: timetable has no number first: this looks like a timetable: tools/timetable.py turns it into tables
> 0 4 depart 50 tables:letter
tables: letter has, after 2 words, something that is no number
> 0 4 depart 50 tables:minus
tables: minus has, after 2 words, something that is no number
> 0 4 depart 50 tables:late
tables: late has, after 1 words, something that is no number
> 0 4 depart 50 tables:nets
tables: nets has, after 0 words, something that is no number
> 0 4 depart 50 tables:short
tables: short has, after 0 words, something that is no number
> 0 4 depart 50 tables:large
tables: large has, after 1 words, a number above 4294967295
> 0 4 depart 50 tables:larger
tables: larger has, after 1 words, a number above 4294967295
> 2 6 depart 6:55:00 tables:town
Leave stop 1 at 7:00:00, arrive at stop 6 at 7:20:00: 1 ride, round 0.
From stop 2: stops 1 and 2 of its station.
ride trip 0 from stop 1 at 7:00:00 to stop 6 at 7:20:00
> 0 6 depart 6:55:00 tables:town
Leave stop 1 at 7:00:00, arrive at stop 6 at 7:20:00: 1 ride, round 0.
From stop 0: stops 1 and 2 of this station.
ride trip 0 from stop 1 at 7:00:00 to stop 6 at 7:20:00
> area:0 6 arrive 7:45:00 tables:town walks:no
Leave stop 1 at 7:00:00, arrive at stop 6 at 7:20:00: 1 ride, round 0.
From area 0: stop 1.
ride trip 0 from stop 1 at 7:00:00 to stop 6 at 7:20:00
> 6 1 depart 6:55:00 tables:town
$departs
To stop 1: stops 1 and 2 of its station.
> 1 7 depart 6:55:00 tables:town86400 midnight:86400
Leave stop 1 at 7:00:00, arrive at stop 7 at 7:21:01: 1 ride, round 0.
From stop 1: stops 1 and 2 of its station.
ride trip 0 from stop 1 at 7:00:00 to stop 6 at 7:20:00
walk from stop 6 at 7:20:00 to stop 7 at 7:21:01
> 1 7 depart 30:55:00 tables:town86400
Leave stop 1 at 31:00:00, arrive at stop 7 at 31:21:01: 1 ride, round 0.
From stop 1: stops 1 and 2 of its station.
ride trip 0 from stop 1 at 31:00:00 to stop 6 at 31:20:00
walk from stop 6 at 31:20:00 to stop 7 at 31:21:01
> 0 4 arrive 0 tables:n450 midnight:1200
$arrives
> 0 2 arrive 0 tables:n450 midnight:800
Leave stop 0 at 23:55:50 the day before, arrive at stop 2 at 23:59:10 the day before: 1 ride, round 0.
ride trip 0 from stop 0 at 23:55:50 the day before to stop 2 at 23:59:10 the day before
> 0 2 arrive 0 tables:n450 midnight:750
Leave stop 0 at 23:56:40 the day before, arrive at stop 2 at 0:00:00: 1 ride, round 0.
ride trip 0 from stop 0 at 23:56:40 the day before to stop 2 at 0:00:00
> 0 2 arrive 0 tables:n172800 midnight:345600
Leave stop 0 at 0:06:40 2 days before, arrive at stop 2 at 0:10:00 2 days before: 1 ride, round 0.
ride trip 1 from stop 0 at 0:06:40 2 days before to stop 2 at 0:10:00 2 days before
> 0 4 depart 50 midnight:0
Leave stop 0 at 0:01:40, arrive at stop 4 at 0:07:30: 2 rides, round 1.
ride trip 0 from stop 0 at 0:01:40 to stop 2 at 0:05:00
transfer from stop 2 at 0:05:00 to stop 3 at 0:05:30
ride trip 2 from stop 3 at 0:05:50 to stop 4 at 0:07:30
> 0 4 depart 277:46:40 midnight:1
8: query moment outside 1 to 1,000,000, with the 1 seconds of midnight
>
FROM: is not given
$usage
> 0
TO: is not given
$usage
> 0 4
depart|arrive: is not given
$usage
> 0 4 depart
MOMENT: is not given
$usage
> home 4 depart 50
FROM: home is no place: give the number of a stop, or area: and a number
$usage
> 0 area: depart 50
TO: area: is no place: give the number of a stop, or area: and a number
$usage
> 0 area:x depart 50
TO: area:x is no place: give the number of a stop, or area: and a number
$usage
> --help
$usage
> -h 4 depart 50
$usage
> -1 4 depart 50
FROM: -1 is no place: give the number of a stop, or area: and a number
$usage
> '' 4 depart 50
FROM:  is no place: give the number of a stop, or area: and a number
$usage
> 0 4294967296 depart 50
TO: 4294967296 is no place: a number is at most 4294967295
$usage
> 0 4 leave 50
depart|arrive: leave is neither: depart at MOMENT, or arrive by it
$usage
> 0 4 departs 50
depart|arrive: departs is neither: depart at MOMENT, or arrive by it
$usage
> 0 4 depart noon
MOMENT: noon is no moment: give seconds, or H:MM:SS
$usage
> 0 4 depart 7:30
MOMENT: 7:30 is no moment: give seconds, or H:MM:SS
$usage
> 0 4 depart 7:5:00
MOMENT: 7:5:00 is no moment: give seconds, or H:MM:SS
$usage
> 0 4 depart :30:00
MOMENT: :30:00 is no moment: give seconds, or H:MM:SS
$usage
> 0 4 depart 7:30:00:
MOMENT: 7:30:00: is no moment: give seconds, or H:MM:SS
$usage
> 0 4 depart 7:61:00
MOMENT: 7:61:00 is no moment: minutes and seconds go from 0 to 59
$usage
> 0 4 depart 7:00:60
MOMENT: 7:00:60 is no moment: minutes and seconds go from 0 to 59
$usage
> 0 4 depart 4294967296
MOMENT: 4294967296 is no moment: there are at most 4294967295 seconds, those of midnight among them
$usage
> 0 4 depart 1193046:28:16
MOMENT: 1193046:28:16 is no moment: there are at most 4294967295 seconds, those of midnight among them
$usage
> 0 4 depart 50 fast
option: fast is no option: there are walks, mode, tables, midnight and bytes
$usage
> 0 4 depart 50 walks:maybe
option: walks:maybe is no option: walks is yes or no
$usage
> 0 4 depart 50 mode:quick
option: mode:quick is no option: mode is source or rescan
$usage
> 0 4 depart 50 tables:
option: tables: names no file
$usage
> 0 4 depart 50 midnight:
option: midnight: is no option: midnight is a number of seconds, at most 4294967295
$usage
> 0 4 depart 50 midnight:24:00:00
option: midnight:24:00:00 is no option: midnight is a number of seconds, at most 4294967295
$usage
> 0 4 depart 50 midnight:4294967296
option: midnight:4294967296 is no option: midnight is a number of seconds, at most 4294967295
$usage
> 0 4 depart 50 midnight:86400 tables:m midnight:86400
option: midnight:86400: midnight is given twice, and may be given once
$usage
> 0 4 depart 50 midnight:4294967246
MOMENT: 50 is no moment: there are at most 4294967295 seconds, those of midnight among them
$usage
> 0 4 depart 50 midnight:4294967245
8: query moment outside 1 to 1,000,000, with the 4294967245 seconds of midnight
> 0 4 depart 50 walks:yes walks:yes
option: walks:yes: walks is given twice, and may be given once
$usage
> 0 4 depart 50 mode:source walks:no mode:rescan
option: mode:rescan: mode is given twice, and may be given once
$usage
> 0 4 depart 50 bytes:yes
option: bytes:yes is no option: there are walks, mode, tables, midnight and bytes
$usage
> 0 4 depart 50 bytes tables:m bytes
option: bytes: bytes is given twice, and may be given once
$usage
> 0 4 depart 401 bytes
$departs
> 5 4 depart 50 bytes
7: a stop or area that does not exist: FROM is stop 5, and the tables have stops 0 to 4 and no areas
> 0 4 depart 50 tables:m tables:m
option: tables:m: tables is given twice, and may be given once
$usage
> ${long}4 4 depart 50
FROM: is longer than 1,024 bytes
$usage
> 0 $long depart 50
$departs
END

while IFS= read -r line; do
    case $line in
    '>'*)
        printf '%s\n' "$line"
        eval "set -- ${line#>}"
        "$root/tests/run.sh" kiosk "$@" </dev/null
        ;;
    esac
done <table >printed
if ! diff table printed; then
    echo "kiosk: what it printed (>) is not the table's (<)"
    exit 1
fi

# ---- the script
input=/dev/null
. "$root/tests/asked.sh"
script=$root/kiosk
asked 0 output 0 4 depart 50
says 'Leave stop 0 at 0:01:40, arrive at stop 4 at 0:07:30: 2 rides, round 1.'
asked 1 error 0 4 depart 401
says "$departs"
# a journey as bytes: what `showlegs` is held to
asked 0 output 0 4 depart 50 bytes
"$root/tests/run.sh" showlegs <said >legs
printf 'ride 0 2 0 100 300\ntransfer 2 3 - 300 330\nride 3 4 2 350 450\nlegs 3\n' | diff - legs || { echo './kiosk .. bytes: not the bytes of N1'; exit 1; }
# one that begins with a footpath
asked 0 output 2 4 arrive 450 tables:n9 bytes
[ "$(head -c 1 said | od -An -tu1 | tr -d ' ')" = 2 ] || { echo './kiosk .. bytes: no footpath first'; exit 1; }
asked 1 error 0 4 depart 401 bytes
says "$departs"
asked 2 error 0 4 depart 50 bytes bytes
asked 1 error 5 4 depart 50
asked 1 error 0 4 depart 0
asked 1 error 0 4 depart 50 tables:bad2
asked 1 error 0 4 depart 50 tables:nowhere
says 'tables: nowhere cannot be read'
asked 1 error 0 4 depart 50 tables:letter
asked 1 error 0 4 depart 50 tables:stops129
asked 2 error 0 4
says 'depart|arrive: is not given'
asked 2 error 0 4 depart 7:30
asked 2 error 0 4 depart 50 fast
says "$usage"
asked 2 error
says "$usage"
asked 0 output --help
says "$usage"
asked 0 output -h
# through a link, from a folder of its own: a file of tables is the caller's
mkdir elsewhere
ln -s "$script" elsewhere/ask
ln -s ask elsewhere/again
mv m elsewhere
cd elsewhere
script=./again
asked 0 output 0 2 depart 120 mode:rescan tables:m
cd ..
script=$root/kiosk
# what rt says: crates that were proved anew are told, the others not; what fails is shown. What the kit here has built is not another kit's
mkdir rt
cat >rt/rt <<END
#!/bin/sh
case \$1 in
version) echo another kit && exit ;;
run) cat "$room/run" && exit \$(cat "$room/ends") ;;
esac
PATH=\${PATH#*:} exec rt "\$@"
END
chmod +x rt/rt
PATH=$room/rt:$PATH
told() { grep -Eqx "$1, [0-9]+ s" said || { echo "./kiosk does not say: $1"; cat said; exit 1; }; }
ran='rt: running out/kiosk; to give it other input, run that file yourself'
printf '%s\n' 'rt: chose --jobs 2 for model' 'fn model::a: proved' 'crate model: modules loaded=1 checked=2' 'logic=proved functions=1' "$ran" >run
echo 0 >ends
"$script" 0 4 depart 50 >output 2>said
told 'proved model'
[ "$(wc -l <said)" -eq 1 ] || { echo './kiosk says more than what was proved:'; cat said; exit 1; }
echo "$ran" >run
"$script" 0 4 depart 50 >output 2>said
[ ! -s said ] || { echo './kiosk says something where nothing was proved:'; cat said; exit 1; }
printf '%s\n' 'crate base: modules loaded=1 checked=2' 'logic=proved functions=1' 'fn model::b: not proved' 'logic=not-proved' >run
echo 1 >ends
asked 1 error 0 4 depart 50
told 'proved base'
says 'fn model::b: not proved'
says 'logic=not-proved'
echo "kiosk: $(grep -c '^>' table) runs printed what the table has; $asks times the script gave its status and used the right stream"
