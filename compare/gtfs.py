#!/usr/bin/env python3
"""The C face of the feed reader beside a reader over Python's csv, row by row, and what its writers make of the rows.

    gtfs.py PROGRAM COUNT SEED [PROCESSES]      COUNT small pairs of files by seed, then one pair at every limit; gtfs.sh builds the program
    gtfs.py large FOLDER                        writes that pair there: stop_times.txt and transfers.txt
    gtfs.py slow FOLDER                         writes a pair whose 4,096 stops all fall into one slot of the book

Compared: the number, the line and the file; the counts; every row; every id by the place that the book says; that nothing else was
touched; what the writers write, byte by byte, and that it reads back to the same. Each outcome is counted, and each reason for which a
line is refused must come up.
"""
import csv
import multiprocessing
import os
import random
import re
import struct
import subprocess
import sys
from collections import Counter

MAX, DAY = 4294967295, 86400
MOST = {"times": 262144, "paths": 16384, "stops": 4096, "trips": 16384}
TIMES = ["trip_id", "arrival_time", "departure_time", "stop_id", "stop_sequence"]
TRANSFERS = ["from_stop_id", "to_stop_id", "transfer_type", "min_transfer_time"]
CHUNK = 500

# ==== the reader over Python's csv


class Refused(Exception):
    """A line that is refused, and why."""

    def __init__(self, number, why):
        super().__init__(why)
        self.number, self.why = number, why


def bad(why):
    return Refused(14, why)


def stood_for(raw):
    """Bytes as text for csv, a character for each; CR, at which it ends a record, and 0, at which old ones stop, as others."""
    return raw.decode("latin-1").replace("\r", "\ue00d").replace("\0", "\ue000")


def fields(line):
    """The fields of a line by Python's csv, as text of one character for each byte."""
    text = stood_for(line)
    try:
        row = next(csv.reader([text], strict=True), [])
    except csv.Error:
        raise bad("quotes")
    # csv keeps a quote within a field that does not begin with one; RFC 4180 has no such field
    if '"' in text and any('"' in part for part in re.sub(r'(?:^|(?<=,))"(?:[^"]|"")*"(?=,|$)', "", text).split(",")):
        raise bad("quotes")
    return row or [""]  # of an empty line csv makes no field


def lines(raw):
    """The lines of a file, without their ends."""
    parts = raw.removeprefix(b"\xef\xbb\xbf").split(b"\n")
    if parts[-1] == b"":
        parts.pop()
    return [part.removesuffix(b"\r") for part in parts]


def number(text, most):
    if not re.fullmatch("[0-9]+", text) or int(text) > most:
        return None
    return int(text)


def moment(text):
    parts = re.fullmatch("([0-9]{1,2}):([0-5][0-9]):([0-5][0-9])", text)
    if not parts:
        raise bad("a time")
    hours, minutes, seconds = map(int, parts.groups())
    return DAY + hours * 3600 + minutes * 60 + seconds


class Feed:
    """What the two files say, as far as they could be read."""

    def __init__(self, room):
        self.room, self.stops, self.trips, self.times, self.paths = room, {}, {}, [], []
        self.last = self.split = None
        self.number = self.line = self.file = 0
        self.why = "read"

    def read(self, one, two):
        try:
            self.file = 1
            self.rows(one, TIMES, [], self.time)
            self.file, self.split = 2, len(self.stops)
            self.rows(two, TRANSFERS[:3], TRANSFERS[3:], self.path)
        except Refused as refused:
            self.number, self.why = refused.number, f"{'stop_times' if self.file == 1 else 'transfers'}: {refused.number} {refused.why}"
        if self.number != 14:
            self.line = self.file = 0
        if self.split is None:
            self.split = len(self.stops)
        return self

    def rows(self, raw, once, seldom, row):
        """Gives each line below the header to `row`. The columns of `once` stand there once, those of `seldom` once or not at all."""
        self.line, header = 1, None
        for self.line, line in enumerate(lines(raw), 1):
            given = fields(line)
            if header is None:
                header = given
                if any(header.count(name) != 1 for name in once) or any(header.count(name) > 1 for name in seldom):
                    raise bad("a column")
            elif len(given) != len(header):
                raise bad("more or fewer fields")
            else:
                row(dict(zip(header, given)))
        if header is None:
            raise bad("no header")

    def time(self, row):
        trip, stop = row["trip_id"], row["stop_id"]
        if not trip or not stop:
            raise bad("no id")
        arrival, departure, sequence = moment(row["arrival_time"]), moment(row["departure_time"]), number(row["stop_sequence"], MAX)
        if sequence is None:
            raise bad("a sequence")
        if self.last and self.last[0] == trip:
            if sequence <= self.last[1]:
                raise bad("a sequence that does not rise")
        elif trip in self.trips:
            raise bad("a trip that comes back")
        self.fits("trips", self.trips, {trip})
        self.fits("stops", self.stops, {stop})
        self.fits("times", self.times, {None})
        self.times.append((self.trips.setdefault(trip, len(self.trips)), self.stops.setdefault(stop, len(self.stops)), arrival, departure))
        self.last = trip, sequence

    def path(self, row):
        here, there, kind = row["from_stop_id"], row["to_stop_id"], row["transfer_type"]
        if not here or not there:
            raise bad("no id")
        kind = 0 if kind == "" else number(kind, 5)
        if kind is None:
            raise bad("a type")
        span = number(row.get("min_transfer_time", ""), MAX - 1) if kind == 2 else MAX
        if span is None:
            raise bad("a span")
        self.fits("stops", self.stops, {here, there})
        self.fits("paths", self.paths, {None})
        here = self.stops.setdefault(here, len(self.stops))
        self.paths.append((here, self.stops.setdefault(there, len(self.stops)), kind, span))

    def fits(self, table, rows, more):
        if len(rows) + sum(one is None or one not in rows for one in more) > min(self.room[table], MOST[table]):
            raise Refused(15, table)

    def told(self):
        return self.number, self.line, self.file, len(self.stops), self.split, len(self.trips), len(self.times), len(self.paths)


def written(feed):
    """The two files that the writers make of its rows."""
    clock = lambda m: f"{(m - DAY) // 3600:02}:{(m - DAY) // 60 % 60:02}:{(m - DAY) % 60:02}"
    one, two, at, before = [",".join(TIMES)], [",".join(TRANSFERS)], 0, None
    for trip, stop, arrival, departure in feed.times:
        at = at + 1 if trip == before else 0
        before = trip
        one.append(f"{trip},{clock(arrival)},{clock(departure)},{stop},{at}")
    two += (f"{here},{there},{kind},{span if kind == 2 else ''}" for here, there, kind, span in feed.paths)
    return tuple("".join(line + "\n" for line in lines).encode() for lines in (one, two))


# ==== what the program replies


def request(one, two, room):
    return struct.pack("6I", len(one), len(two), *(4 * room[t] for t in ("times", "paths", "stops", "trips"))) + one + two


class Reply:
    def __init__(self, data):
        self.data, self.at = memoryview(data), 0

    def words(self, n):
        self.at += 4 * n
        return struct.unpack_from(f"{n}I", self.data, self.at - 4 * n)

    def rows(self, n, width):
        flat = iter(self.words(n * width))
        return list(zip(*[flat] * width))

    def bytes(self, n):
        self.at += n
        return bytes(self.data[self.at - n : self.at])


def differs(reply, one, two, feed):
    """What of a reply is not as the feed has it, or nothing."""
    told = reply.words(8)
    untouched, times, paths = reply.words(1)[0], reply.rows(told[6], 4), reply.rows(told[7], 4)
    stops, trips = reply.rows(told[3], 2), reply.rows(told[5], 2)
    text = lambda raw, place: stood_for(raw[place[0] : place[1]].replace(b'""', b'"'))
    wrong = []
    if told != feed.told():
        wrong.append(f"told {told}, csv {feed.told()}")
    if not untouched:
        wrong.append("something else was touched")
    if times != feed.times or paths != feed.paths:
        wrong.append(f"rows {times[:9]} {paths[:9]}, csv {feed.times[:9]} {feed.paths[:9]}")
    if [text(one if i < told[4] else two, place) for i, place in enumerate(stops)] != list(feed.stops):
        wrong.append("the stops' ids")
    if [text(one, place) for place in trips] != list(feed.trips):
        wrong.append("the trips' ids")
    if told[0] == 0:
        first, second = reply.words(2), reply.words(2)
        files = reply.bytes(first[1]), reply.bytes(second[1])
        if (first[0], second[0]) != (0, 0) or files != written(feed):
            wrong.append(f"the writers: {first} {second}")
        if reply.words(1) != (1,):
            wrong.append("what was written does not read back")
    return wrong


def asked(program, pairs):
    done = subprocess.run([program], input=b"".join(request(*pair) for pair in pairs), stdout=subprocess.PIPE)
    if done.returncode != 0:
        raise SystemExit(f"{program}: status {done.returncode}")
    return Reply(done.stdout)


# ==== small pairs

STOPS = ["A", "B", "C, 1", 'D"d', "e", "7", "07", "ü", "a", "", '"', "Z1", "Z2", "Z3"]
TRIPS = ["t1", "t2", "t3", 't"4', "t,5", "7", "x\ry"]
ODD_TIMES = "", "8:5:00", "100:00:00", " 8:00:00", "08:60:00", "08:00:60", "-1:00:00", "08:00", "008:00:00", "08.00.00", "99:59:59"
ODD_SEQUENCES = "", "-1", "4294967295", "4294967296", "1.0", "+2"


def quoted(dice, text):
    return '"' + text.replace('"', '""') + '"' if "," in text or '"' in text or dice.random() < 0.15 else text


def table(dice, columns, rows):
    """A file of these rows: columns in any order, some more of them, ends of lines of either kind."""
    order = columns + dice.sample(["x", "y", "shape_dist_traveled"], dice.randint(0, 2))
    if dice.random() < 0.6:
        dice.shuffle(order)
    if dice.random() < 0.04:
        order.insert(dice.randrange(len(order) + 1), dice.choice(order))
    if dice.random() < 0.04:
        order.pop(dice.randrange(len(order)))
    end = dice.choice(("\n", "\r\n"))
    text = [",".join(quoted(dice, name) for name in order)]
    text += (",".join(quoted(dice, row.get(name, dice.choice(("", "junk", "a,b", "0")))) for name in order) for row in rows)
    mark = "\ufeff" if dice.random() < 0.1 else ""
    return (mark + end.join(text) + (end if dice.random() < 0.7 else "")).encode()


def shown(dice, seconds):
    if dice.random() < 0.006:
        return dice.choice(ODD_TIMES)
    hours = f"{seconds // 3600:02}" if dice.random() < 0.6 else str(seconds // 3600)
    return f"{hours}:{seconds // 60 % 60:02}:{seconds % 60:02}"


def small(dice):
    """A pair of files, most often good ones."""
    rows, stops = [], dice.sample(STOPS[:9], 6) + (STOPS if dice.random() < 0.05 else [])
    for trip in dice.sample(TRIPS, dice.randint(0, 4)):
        at, sequence = dice.randint(0, 350000), dice.randint(0, 3)
        for _ in range(dice.randint(1, 4)):
            leaves = min(at + dice.randint(0, 900), 359999)
            place = dice.choice(("%d", "%d", "%d", "%04d")) % sequence if dice.random() < 0.99 else dice.choice(ODD_SEQUENCES)
            rows.append(dict(zip(TIMES, (trip, shown(dice, at), shown(dice, leaves), dice.choice(stops), place))))
            at, sequence = min(leaves + dice.randint(0, 900), 359999), sequence + (dice.randint(1, 9) if dice.random() < 0.97 else 0)
    if dice.random() < 0.04 and rows:
        rows.append(dice.choice(rows))
    kinds, spans = ("", "0", "1", "2", "2", "2", "3", "4", "5", "02"), ("60", "0", "120", "86400", "4294967294", "007")
    paths = []
    for _ in range(dice.randint(0, 4)):
        kind = dice.choice(kinds) if dice.random() < 0.97 else dice.choice(("6", "x", " 2", "4294967298"))
        span = dice.choice(spans) if dice.random() < 0.97 else dice.choice(("", "4294967295", "1.5", "junk"))
        paths.append(dict(zip(TRANSFERS, (dice.choice(stops + ["Z1", "Z2"]), dice.choice(stops + ["Z1", "Z3"]), kind, span))))
    return table(dice, TIMES, rows), table(dice, TRANSFERS[: 4 if dice.random() < 0.9 else 3], paths)


def damaged(dice, raw):
    """The file with a byte or two changed, put in or left out; or a line, or its end."""
    raw = bytearray(raw)
    for _ in range(dice.choice((0, 0, 1, 1, 2))):
        at, how = dice.randrange(len(raw) + 1), dice.random()
        if how < 0.35:
            raw[at : at + 1] = bytes([dice.choice(b',"\n\r0123459:; ax\xef\x00')])
        elif how < 0.6:
            raw[at:at] = bytes([dice.choice(b',"\n\r059: a')])
        elif how < 0.85:
            del raw[at : at + 1]
        elif how < 0.9:
            del raw[at if dice.random() < 0.6 else 0 :]
        else:
            all_lines = bytes(raw).split(b"\n")
            all_lines.insert(dice.randrange(len(all_lines) + 1), dice.choice(all_lines + [b"", b"\r"]))
            raw = bytearray(b"\n".join(all_lines))
    return bytes(raw)


def pair(seed, n):
    dice = random.Random(f"{seed}/{n}")
    one, two = small(dice)
    if dice.random() < 0.5:
        one, two = (damaged(dice, one), two) if dice.random() < 0.6 else (one, damaged(dice, two))
    short = dice.random() < 0.2
    return one, two, {name: dice.choice((0, 1, 2, 3, 5)) if short and dice.random() < 0.4 else 99 for name in MOST}


def chunk(task):
    program, seed, first, last = task
    pairs = [pair(seed, n) for n in range(first, last)]
    reply, seen = asked(program, pairs), Counter()
    for n, (one, two, room) in enumerate(pairs, first):
        feed = Feed(room).read(one, two)
        seen[feed.why] += 1
        wrong = differs(reply, one, two, feed)
        if wrong:  # what follows in the reply cannot be told apart
            return seen, [f"seed {seed}, pair {n}: {'; '.join(wrong)}\n{room}\n{one}\n{two}"]
    return seen, []


# ==== large pairs


def large():
    """At every limit: 262,144 rows of 16,384 trips over 4,096 stops, some 12 MB; and 16,384 transfers. The trips are of 512 routes."""
    dice = random.Random(1)
    stops = [f'"Stop {s}, ""{s % 7}"""' if s % 16 == 0 else f"stop:{s:05}" for s in range(4096)]
    dice.shuffle(stops)
    routes = [[(stops[(8 * r + p) % 4096], dice.randint(0, 60), dice.randint(30, 900)) for p in range(16)] for r in range(512)]
    one = [",".join(["stop_sequence", "pickup_type", *TIMES[:4]])]
    for trip in range(16384):
        at = 14400 + 2400 * (trip // 512) + dice.randint(0, 2399)
        for p, (stop, stays, goes) in enumerate(routes[trip % 512]):
            clock = [f"{t // 3600}:{t // 60 % 60:02}:{t % 60:02}" for t in (at, at + stays)]
            one.append(f"{p + 1},0,trip-{trip},{clock[0]},{clock[1]},{stop}")
            at += stays + goes
    two = [",".join(TRANSFERS)]
    for _ in range(16384):
        two.append(f"{dice.choice(stops)},{dice.choice(stops)},{dice.choice('012345')},{dice.randint(0, 600)}")
    return tuple("\r\n".join(lines).encode() + b"\r\n" for lines in (one, two))


def slow():
    """262,144 rows whose 4,096 stops all fall into one slot: the hash of `names` (h * 31 + byte) is the same for Aa and BB, and so on."""
    stops = ["".join("Aa" if n >> bit & 1 else "BB" for bit in range(12)) for n in range(4096)]
    one = [",".join(TIMES)]
    for trip in range(16384):
        for p in range(16):
            one.append(f"{trip},8:00:00,8:00:00,{stops[(trip * 16 + p) % 4096]},{p}")
    return "\n".join(one).encode(), ",".join(TRANSFERS).encode()


def write_pair(folder, files):
    os.makedirs(folder, exist_ok=True)
    for name, raw in zip(("stop_times.txt", "transfers.txt"), files):
        with open(os.path.join(folder, name), "wb") as f:
            f.write(raw)


# ==== all of it

BOTH = "14 quotes", "14 no header", "14 a column", "14 more or fewer fields", "14 no id", "15 stops"
TRIP = "14 a time", "14 a sequence", "14 a sequence that does not rise", "14 a trip that comes back", "15 trips", "15 times"
REASONS = {"stop_times": BOTH + TRIP, "transfers": BOTH + ("14 a type", "14 a span", "15 paths")}


def main(program, count, seed, processes="1"):
    count, seed, seen = int(count), int(seed), Counter()
    tasks = [(program, seed, n, min(n + CHUNK, count)) for n in range(0, count, CHUNK)]
    with multiprocessing.Pool(int(processes)) as pool:
        for some, wrong in pool.imap_unordered(chunk, tasks):
            seen += some
            if wrong:
                print("\n".join(wrong))
                return 1
    for why, n in sorted(seen.items()):
        print(f"{n:9,}  {why}")
    missed = [f"{file}: {why}" for file, reasons in REASONS.items() for why in reasons if f"{file}: {why}" not in seen]
    if count >= 5000 and missed:
        print("never seen:", ", ".join(missed))
        return 1
    one, two = large()
    feed = Feed(MOST).read(one, two)
    wrong = differs(asked(program, [(one, two, MOST)]), one, two, feed)
    print(f"{count:,} small pairs, and one of {len(feed.times):,} rows and {len(feed.paths):,} transfers, {len(one) + len(two):,} bytes: "
          f"{len(wrong)} wrong")
    if wrong:
        print("; ".join(wrong)[:2000])
    return 1 if wrong else 0


if __name__ == "__main__":
    if sys.argv[1:2] in (["large"], ["slow"]) and len(sys.argv) == 3:
        write_pair(sys.argv[2], large() if sys.argv[1] == "large" else slow())
    elif len(sys.argv) in (4, 5):
        sys.exit(main(*sys.argv[1:]))
    else:
        sys.exit(__doc__)
