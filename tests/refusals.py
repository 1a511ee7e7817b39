"""What the tools are given that is wrong, and what they say of it; tests/tools.py runs them on it."""
import re

LONG = "stops 129\nroute " + " ".join(map(str, range(129)))
TIMETABLES = [
    ("", ": this timetable is empty: its first line is `stops N`, how many stops there are"),
    ("# nothing\n\n", ": this timetable is empty: its first line is `stops N`, how many stops there are"),
    ("route 0 1\n", ", line 1: the first line is `stops N`, how many stops there are"),
    ("net 21 26\n", ", line 1: these look like tables already: a timetable begins with `stops N`"),
    ("stops\n", ", line 1: `stops` takes one number, how many stops there are"),
    ("stops 2 3\n", ", line 1: `stops` takes one number, how many stops there are"),
    ("stops -2\n", ", line 1: `stops` takes one number, how many stops there are"),
    ("stops \u00b2\n", ", line 1: `stops` takes one number, how many stops there are"),
    ("\n# a\nstops 5000\n", ", line 3: there are more than 4,096 stops, and 4,096 is the most"),
    ("stops " + "9" * 5000, ", line 1: there are more than 4,096 stops, and 4,096 is the most"),
    ("stops 2\nstops 2\n", ", line 2: `stops` stands in line 1 already, and may stand once"),
    ("stops 2\nrout 0 1\n", ", line 2: `rout` begins no line of a timetable: there are stops, route, trip, transfer, walk, station and area"),
    ("stops 2\n\x1b[2J 0 1\n", ", line 2: `?[2J` begins no line of a timetable: there are stops, route, trip, transfer, walk, station and area"),
    ("stops 2\nroute\n", ", line 2: a route names its stops, one at least"),
    ("stops 2\nroute 0 2\n", ", line 2: 2 is no stop: the stops are 0 to 1"),
    ("stops 2\nroute 0 -1\n", ", line 2: -1 is no stop: the stops are 0 to 1"),
    ("stops 2\nroute 0 home\n", ", line 2: home is no stop: the stops are 0 to 1"),
    ("stops 0\nroute 0\n", ", line 2: 0 is no stop: there are none"),
    (LONG, ", line 2: there are more than 128 stops in a route, and 128 is the most"),
    ("stops 2\ntrip 1 2\n", ", line 2: a trip stands below its route, and there is no route above it"),
    ("stops 2\nroute 0 1\ntrip 1\n",
     ", line 3: a trip has one time for each stop of its route: the route in line 2 has 2 stops, this trip has 1 time"),
    ("stops 2\nroute 0 1\ntrip 25:61:00 26:00:00\n", ", line 3: 25:61:00 is no moment: minutes and seconds go from 0 to 59"),
    ("stops 2\nroute 0 1\ntrip 25:01:60 26:00:00\n", ", line 3: 25:01:60 is no moment: minutes and seconds go from 0 to 59"),
    ("stops 2\nroute 0 1\ntrip 7:30 8:00\n", ", line 3: 7:30 is no moment: give seconds, or H:MM:SS"),
    ("stops 2\nroute 0 1\ntrip 7:5:00 8:00:00\n", ", line 3: 7:5:00 is no moment: give seconds, or H:MM:SS"),
    ("stops 2\nroute 0 1\ntrip -5 8:00:00\n", ", line 3: -5 is no moment: give seconds, or H:MM:SS"),
    ("stops 2\nroute 0 1\ntrip noon 8:00:00\n", ", line 3: noon is no moment: give seconds, or H:MM:SS"),
    ("stops 2\nroute 0 1\ntrip 1/2/3 8:00:00\n", ", line 3: 1/2/3 is no time at a stop: give arrival/departure, or one moment for both"),
    ("stops 2\nroute 0 1\ntrip /3 8:00:00\n", ", line 3: /3 is no time at a stop: give arrival/departure, or one moment for both"),
    ("stops 2\nroute 0 1\ntrip 0 5\n", ", line 3: 0 is out of range: a moment is 1 to 1,000,000 seconds; with --midnight 86400 it may be 0"),
    ("stops 2\nroute 0 1\ntrip 5 1000001\n", ", line 3: 1000001 is out of range: a moment is 1 to 1,000,000 seconds"),
    ("stops 2\nroute 0 1\ntrip 5 4294967301\n", ", line 3: 4294967301 is out of range: a moment is 1 to 1,000,000 seconds"),
    ("stops 2\nroute 0 1\ntrip 5 " + "9" * 5000, ", line 3: " + "9" * 40 + ".. is out of range: a moment is 1 to 1,000,000 seconds"),
    ("stops 2\nroute 0 1\ntrip 5 " + "9" * 5000 + ":00:00", ", line 3: " + "9" * 40 + ".. is out of range: a moment is 1 to 1,000,000 seconds"),
    ("stops 2\nroute 0 1\ntrip 100 60\n",
     ", line 3: the trip arrives at stop 1 at 0:01:00, before it leaves stop 0 at 0:01:40: times never fall along a trip"),
    ("stops 2\nroute 0 1\ntrip 100 130/120\n",
     ", line 3: the trip leaves stop 1 at 0:02:00, before it arrives there at 0:02:10: write arrival/departure"),
    ("stops 2\nroute 0 1\ntrip 50 100\n# the next\ntrip 60 99/200\n",
     ", line 5: the trip arrives at stop 1 at 0:01:39, before the trip in line 3 does at 0:01:40: trips of a route stand in the order of their "
     "times; one that overtakes another needs a route line of its own"),
    ("stops 2\nroute 0 1\ntrip 50/60 100\ntrip 50/59 100\n",
     ", line 4: the trip leaves stop 0 at 0:00:59, before the trip in line 3 does at 0:01:00: trips of a route stand in the order of their "
     "times; one that overtakes another needs a route line of its own"),
    ("stops 2\ntransfer 0 1\n", ", line 2: `transfer` takes two stops and seconds or metres, as `transfer 2 3 30` or `transfer 2 3 150m`"),
    ("stops 2\ntransfer 0 7 30\n", ", line 2: 7 is no stop: the stops are 0 to 1"),
    ("stops 2\ntransfer 0 1 -30\n", ", line 2: -30 is no span: give whole seconds, as 30, or metres, as 150m"),
    ("stops 2\ntransfer 0 1 1.5\n", ", line 2: 1.5 is no span: give whole seconds, as 30, or metres, as 150m"),
    ("stops 2\ntransfer 0 1 86401\n", ", line 2: 86401 is too long: a span is 0 to 86,400 seconds, a day"),
    ("stops 2\ntransfer 0 1 4294967295\n", ", line 2: 4294967295 is too long: a span is 0 to 86,400 seconds, a day"),
    ("stops 2\ntransfer 0 1 m\n", ", line 2: m is no distance: give metres, as 150 or 90.5"),
    ("stops 2\ntransfer 0 1 -1m\n", ", line 2: -1m is no distance: give metres, as 150 or 90.5"),
    ("stops 2\nwalk 0 1\n", ", line 2: `walk` takes two stops and metres, as `walk 6 7 90.5`"),
    ("stops 2\nwalk 0 1 nan\n", ", line 2: nan is no distance: give metres, as 150 or 90.5"),
    ("stops 2\nwalk 0 1 inf\n", ", line 2: inf is no distance: give metres, as 150 or 90.5"),
    ("stops 2\nwalk 0 1 1e3\n", ", line 2: 1e3 is no distance: give metres, as 150 or 90.5"),
    ("stops 2\nwalk 0 1 100000.0000000000000000001\n", ", line 2: 100000.0000000000000000001 is too far: a distance is 0 to 100,000 metres"),
    ("stops 2\nwalk 0 1 " + "9" * 5000, ", line 2: " + "9" * 40 + ".. is too far: a distance is 0 to 100,000 metres"),
    ("stops 3\nstation 0\n", ", line 2: `station` takes a stop, a colon and the stops that are its children, as `station 0: 1 2`"),
    ("stops 3\nstation 0:\n", ", line 2: `station` takes a stop, a colon and the stops that are its children, as `station 0: 1 2`"),
    ("stops 3\nstation 0: 1 1\n",
     ", line 2: stop 1 is a child of station 0 already (line 2): a stop has one station, and is named there once"),
    ("stops 3\nstation 0: 1\n\nstation 2: 1\n",
     ", line 4: stop 1 is a child of station 0 already (line 2): a stop has one station, and is named there once"),
    ("stops 3\narea 1 2 1\n", ", line 2: this area names stop 1 twice"),
    (b"stops 3\r\narea 1 \xff2\r\n", ", line 2: a byte that belongs to no text in UTF-8"),
    (b"\xff", ", line 1: a byte that belongs to no text in UTF-8"),
    (b"\x00", ", line 1: `?` begins no line of a timetable: there are stops, route, trip, transfer, walk, station and area"),
]
# at the limit it is accepted, one more is refused: a head, one more line, how many of it, the limit and what is limited
CALLS = " ".join(["5"] * 128)
LIMITS = [
    ("stops 1\n", "route 0\n", 1024, 1024, "routes"), ("stops 1\nroute 0\n", "trip 5\n", 16384, 16384, "trips"),
    ("stops 1\nroute " + " ".join(["0"] * 128) + "\n", "trip " + CALLS + "\n", 2048, 262144, "stop times"),
    ("stops 1\n", "transfer 0 0 5\n", 16384, 16384, "transfers"), ("stops 1\n", "walk 0 0 5\n", 32768, 32768, "walks"),
    ("stops 1\n", "area\n", 1024, 1024, "areas"),
    ("stops 32\n", "area " + " ".join(map(str, range(32))) + "\n", 512, 16384, "stops named by areas"),
]

N1 = """Leave stop 0 at 0:01:40, arrive at stop 4 at 0:07:30: 2 rides, round 1.
ride trip 0 from stop 0 at 0:01:40 to stop 2 at 0:05:00
transfer from stop 2 at 0:05:00 to stop 3 at 0:05:30
ride trip 2 from stop 3 at 0:05:50 to stop 4 at 0:07:30
"""
N1_LATER = re.sub(r"0(:\d\d:\d\d)", r"24\1", N1)
# what `kiosk` printed, the status, and what is said of it
JOURNEYS = [
    ("10: no route found\n", 1, "standard input: there is no journey to draw: `kiosk` said 10: no route found"),
    ("10: no route found; and more of it\nFrom stop 0: stop 0.\n", 1,
     "standard input: there is no journey to draw: `kiosk` said 10: no route found; and more of it"),
    (N1.replace("0:05:30", "23:50:00 the day before"), 2,
     "standard input, line 3: 23:50:00 the day before is before midnight, and a timetable has no such moment"),
    ("", 1, "standard input: there is no journey to draw: it is empty, as where `kiosk` says on the error stream why it found none"),
    ("tables: town.net cannot be read\n", 2, "standard input: there is no leg of a journey in it: give it what `kiosk` prints"),
    (N1.replace("trip 2", "trip 9"), 2, "standard input, line 4: the timetable has no trip 9: it has 4 trips"),
    (N1.replace("trip 2", "trip 1"), 2, "standard input, line 4: in the timetable trip 1 does not go from stop 3 at 0:05:50 to stop 4 at 0:07:30; "
     "were the tables made with --midnight?"),
    (N1_LATER, 2, "standard input, line 2: in the timetable trip 0 does not go from stop 0 at 24:01:40 to stop 2 at 24:05:00; were the tables made "
     "with --midnight?"),
    (N1.replace("stop 4", "stop 5"), 2, "standard input, line 1: 5 is no stop: the stops are 0 to 4"),
    (N1.replace("0:05:30", "0:05:61"), 2, "standard input, line 3: 0:05:61 is no moment: minutes and seconds go from 0 to 59"),
    (N1.replace("stop 3 at 0:05:30", "stop 3 at 0:04:30"), 2, "standard input, line 3: this leg arrives at 0:04:30, before it leaves at 0:05:00"),
    (N1.replace("stop 3 at 0:05:30", "stop 3 at 0:06:30"), 2,
     "standard input, line 4: this leg leaves stop 3 at 0:05:50, and the leg before it arrives at stop 3 at 0:06:30"),
    (N1.replace("to stop 3", "stop 3"), 2, "standard input, line 3: this is no leg as `kiosk` prints it"),
    (N1[:N1.index("ride trip 2")], 2, "standard input: its legs do not go from where its first line says to where it says: some are missing"),
    (N1.replace("ride trip 2", "Ride trip 2"), 2,
     "standard input: its legs do not go from where its first line says to where it says: some are missing"),
    (N1.encode() + b"\xc3", 2, "standard input, line 5: a byte that belongs to no text in UTF-8"),
]
TABLES = [
    ("21 26 x\n", ", line 1: after 2 words, x is no number"), ("net 21\n26 -1\n", ", line 2: after 2 words, -1 is no number"),
    ("21 net\n", ", line 1: after 1 word, net is no number"), ("net 21\t26\n", ", line 1: after 0 words, 21?26 is no number"),
    ("\ufeffnet 21\n", ", line 1: after 0 words, ?net is no number"),
    ("stops 5\n", ", line 1: after 0 words, stops is no number: this looks like a timetable, and tools/timetable.py makes tables of it"),
    ("21 4294967296\n", ", line 1: after 1 word, 4294967296 is above 4294967295, the most that a word holds"),
    ("21 " + "9" * 5000, ", line 1: after 1 word, " + "9" * 40 + ".. is above 4294967295, the most that a word holds"),
]
# asked in a way that a tool does not know: the tool, its arguments, what is said first
ASKED = [
    ("timetable", ["--midnigth", "5", "x"], "--midnigth is no option"), ("timetable", ["--midnight"], "--midnight: its value is not given"),
    ("timetable", ["--midnight", "-5", "x"], "--midnight: -5 is no number of seconds from 0 to 1,000,000"),
    ("timetable", ["--midnight", "1000001", "x"], "--midnight: 1000001 is no number of seconds from 0 to 1,000,000"),
    ("timetable", ["--midnight=5", "--midnight=5", "x"], "--midnight is given twice, and may be given once"),
    ("timetable", ["x", "y"], "one file is asked for, and 2 are given"),
    ("timetable", ["--midnight", "5"], "one file is asked for, and none is given"),
    ("drawing", ["-"], "the timetable is a file: standard input is what `kiosk` prints"),
    ("drawing", ["--asked", "noon", "x"], "--asked: noon is no moment: give seconds, or H:MM:SS"),
    ("drawing", ["--asked", "50", "--midnight", "60", "x"], "--asked 0:00:50 is less than --midnight 60: both are on the clock of the tables"),
    ("fault", ["--midnight", "5", "x"], "--midnight is no option"), ("fault", ["--", "--help", "x"], "one file is asked for, and 2 are given"),
]
