#!/usr/bin/env python3
"""Says where the fault of a tables file stands: the number 1 to 5 of the library's check, the section, the row, the word and the rule.
It is tested against that check (tests/tools.py), not proved: what is accepted, the library says.

    tools/fault.py TABLES                               the words as `kiosk` reads them; the file `-` is standard input

It prints `0: these tables are accepted` (status 0); or the first fault of the lowest number, and how many more there are of it (status 1).
Status 2: the file holds something else than words. The sections are those of crates/repository/specs/Sections.antt, the rules those of Laid.antt,
Listed.antt and Checked.antt beside it.
"""
import struct
import sys
from collections import namedtuple

sys.dont_write_bytecode = True
import manners
from manners import count, number, shown, there_are

MAX = 4294967295
NAMES = ["stop list", "stations", "child starts", "children", "call starts", "calls", "served", "transfer starts", "transfers", "walk starts",
         "walks", "route stop starts", "route stops", "route trip starts", "route trips", "time starts", "times", "area starts", "area stops",
         "standing"]
SECTIONS, HEADER = 20, 21
# the words of a row, where there are more than one
COLUMNS = {5: ("route", "first position", "last position"), 8: ("from", "to", "span", "metres"), 10: ("to", "metres"), 16: ("arrival", "departure"),
           19: ("route", "place")}
# document 01's sentences
MEANS = ["these tables are accepted", "a count over its limit, a route without a stop, a slice of wrong length",
         "an index out of range, or a list breaking a listing rule",
         "a timetable moment outside 1 to 1,000,000; arrival after departure at a position; departure after the next position's arrival",
         "trips of a route out of order", "a distance that is NaN, below 0 or above 100,000; a stated transfer span above 86,400"]

# `word` is where the word at fault stands in the tables (None: there is no such word); `says` is what is wrong with it
Fault = namedtuple("Fault", "word says rule")


def wide(k):
    """How many words a row of section k has."""
    return len(COLUMNS.get(k, (1,)))


class Tables:
    def __init__(self, words):
        self.w = words
        if len(words) >= HEADER:
            self.sizes = [max(0, words[k + 1] - words[k]) for k in range(SECTIONS)]
            self.stops, self.routes, self.trips, self.areas = self.sizes[0], *(max(0, self.sizes[k] - 1) for k in (11, 15, 17))

    def at(self, k, i):
        """Where word i of section k stands."""
        return self.w[k] + i

    def sec(self, k, i):
        return self.w[self.w[k] + i]

    def rows(self, k):
        return self.sizes[k] // wide(k)

    def under(self, k, i):
        """The rows of entry i of the starts section k."""
        return range(self.sec(k, i), self.sec(k, i + 1))

    def count(self, k, i):
        return self.sec(k, i + 1) - self.sec(k, i)

    # number 1

    def headed(self):
        w = self.w
        if len(w) < HEADER:
            yield Fault(None, there_are(len(w), "word"), f"tables begin with a header of {HEADER} words")
            return
        if w[0] != HEADER:
            yield Fault(0, f"the first section begins there, and should begin at word {HEADER}",
                        f"the sections begin behind the header's {HEADER} words; tables of another layout have another number of them")
        for k in range(SECTIONS):
            if w[k] > w[k + 1]:
                what = f"section {k + 1}, {NAMES[k + 1]}, begins" if k + 1 < SECTIONS else "the tables end"
                yield Fault(k + 1, f"{what} there, before section {k}, {NAMES[k]}, which begins at {w[k]}",
                            "each section begins where the one before ends")
        if w[SECTIONS] != len(w):
            yield Fault(SECTIONS, f"the tables should end there, and have {count(len(w), 'word')}", "the header's last word is the length of the tables")

    def extent(self, k):
        """Where section k stands: the header's word behind its own says up to where."""
        return f"section {k}, {NAMES[k]}, goes from word {self.w[k]} up to there and has {count(self.sizes[k], 'word')}"

    def sized(self):
        s = self.stops
        stops, trips = f"with {count(s, 'stop')}", f"with {count(self.trips, 'trip')}"
        for k, want, why in ((1, s, stops), (2, s + 1, stops), (4, s + 1, stops), (6, s, stops), (7, s + 1, stops), (9, s + 1, stops),
                             (13, self.sizes[11], "as many as the route stop starts have"), (14, self.trips, trips),
                             (19, self.trips * wide(19), trips)):
            if self.sizes[k] != want:
                yield Fault(k + 1, f"{self.extent(k)}; {why} it should have {want}", "each section is as long as the counts ask")
        for k in (11, 15, 17):
            if self.sizes[k] < 1:
                yield Fault(k + 1, self.extent(k), "a starts section has one word at least")
        for k in (5, 8, 10, 16):
            if self.sizes[k] % wide(k):
                yield Fault(k + 1, f"{self.extent(k)}, which are no rows of {wide(k)}", "a section holds whole rows")

    def limited(self):
        for k, many, most, what in ((0, self.stops, 4096, "stops"), (11, self.routes, 1024, "routes"), (15, self.trips, 16384, "trips"),
                                    (16, self.rows(16), 262144, "stop times"), (8, self.rows(8), 16384, "transfers"),
                                    (10, self.rows(10), 32768, "walks"), (17, self.areas, 1024, "areas"),
                                    (18, self.sizes[18], 16384, "area entries")):
            if many > most:
                yield Fault(k + 1, f"{self.extent(k)}: {many:,} {what}", f"there are at most {most:,} {what}")

    def starting(self, k):
        last, rows = self.sizes[k] - 1, self.rows(k + 1)
        if self.sec(k, 0) != 0:
            yield Fault(self.at(k, 0), "it should be 0", "a starts section begins with 0")
        for i in range(last):
            if self.sec(k, i) > self.sec(k, i + 1):
                yield Fault(self.at(k, i + 1), f"it is below the word before, {self.sec(k, i)}", "a starts section never falls")
        if self.sec(k, last) != rows:
            yield Fault(self.at(k, last), f"it should be {rows}, the number of rows of section {k + 1}, {NAMES[k + 1]}",
                        "a starts section ends with the number of rows of the list behind it")

    def positioned(self):
        for r in range(self.routes):
            n = self.count(11, r)
            if n < 1 or n > 128:
                yield Fault(self.at(11, r + 1), f"route {r} begins at row {self.sec(11, r)} of the route stops and has {count(n, 'stop')}",
                            "a route has 1 to 128 stops")

    def number_1(self):
        """A later test rests on the earlier ones: where these find a fault it is not made."""
        found = list(self.headed())
        if found:
            return found
        found = list(self.sized())
        known = not found
        found += self.limited()
        if known:
            for k in (2, 4, 7, 9, 11, 13, 15, 17):
                faults = list(self.starting(k))
                known = known and not (k == 11 and faults)
                found += faults
            if known:
                found += self.positioned()
        return found

    # number 2, on tables without number 1

    def in_range(self, k, limit, what):
        for i in range(self.sizes[k]):
            if self.sec(k, i) >= limit:
                yield Fault(self.at(k, i), f"there is no such {what}: {there_are(limit, what)}", f"{what}s are numbered from 0")

    def once(self, k, rows, what, rule):
        seen = set()
        for i in rows:
            if self.sec(k, i) in seen:
                yield Fault(self.at(k, i), f"this {what} stands there a second time", rule)
            seen.add(self.sec(k, i))

    def stop_list(self):
        for s in range(self.stops):
            if self.sec(0, s) != s:
                yield Fault(self.at(0, s), f"it should be {s}", "the stop list holds s at place s")

    def stations(self):
        for s in range(self.stops):
            if self.sec(1, s) != MAX and self.sec(1, s) >= self.stops:
                yield Fault(self.at(1, s), f"stop {s} names it as its station, and {there_are(self.stops, 'stop')}",
                            f"a stop's station is a stop, or {MAX} for none")

    def children(self):
        rule = "a station's children are exactly the stops that name it, once each"
        for p in range(self.stops):
            for j in self.under(2, p):
                c = self.sec(3, j)
                if c >= self.stops:
                    yield Fault(self.at(3, j), f"it stands under station {p}, and {there_are(self.stops, 'stop')}", rule)
                elif self.sec(1, c) != p:
                    named = "no station" if self.sec(1, c) == MAX else f"station {self.sec(1, c)}"
                    yield Fault(self.at(3, j), f"stop {c} stands under station {p}, and names {named} in the stations", rule)
        yield from self.once(3, range(self.sizes[3]), "stop", rule)
        listed = {self.sec(3, j) for j in range(self.sizes[3])}
        for s in range(self.stops):
            if self.sec(1, s) != MAX and s not in listed:
                yield Fault(self.at(1, s), f"stop {s} names it as its station, and stands in no children list", rule)

    def route_trips(self):
        yield from self.in_range(14, self.trips, "trip")
        yield from self.once(14, range(self.sizes[14]), "trip", "each trip stands in exactly one route")
        for r in range(self.routes):
            for i in self.under(13, r):
                v = self.sec(14, i)
                if v < self.trips and self.count(15, v) != self.count(11, r):
                    yield Fault(self.at(15, v + 1), f"trip {v} begins at row {self.sec(15, v)} of the times and has {self.count(15, v)} of them; "
                                f"its route {r} has {count(self.count(11, r), 'stop')}", "a trip has one stop time for each position of its route")

    def standing(self):
        rule = "a trip's standing is the route that it stands in and its place among the route trips"
        for v in range(self.trips):
            r, place = self.sec(19, v * 2), self.sec(19, v * 2 + 1)
            if r >= self.routes:
                yield Fault(self.at(19, v * 2), f"trip {v} names it as its route, and {there_are(self.routes, 'route')}", rule)
            elif place not in self.under(13, r):
                has = f"the places {self.sec(13, r)} to {self.sec(13, r + 1) - 1}" if self.count(13, r) else "no trip"
                yield Fault(self.at(19, v * 2 + 1), f"trip {v} names it as its place in route {r}, which has {has}", rule)
            elif self.sec(14, place) != v:
                yield Fault(self.at(19, v * 2 + 1), f"trip {v} names it as its place in route {r}, where trip {self.sec(14, place)} stands", rule)

    def calls(self):
        rule = "a stop's calls name exactly the routes that contain it, with its first and last position there, once each, ascending"
        for s in range(self.stops):
            for j in self.under(4, s):
                r = self.sec(5, j * 3)
                if r >= self.routes:
                    yield Fault(self.at(5, j * 3), f"stop {s} names it as a route, and {there_are(self.routes, 'route')}", rule)
                    continue
                for which, name in ((1, "first"), (2, "last")):
                    p = self.sec(5, j * 3 + which)
                    if p >= self.count(11, r):
                        yield Fault(self.at(5, j * 3 + which), f"stop {s} names it as its {name} position in route {r}, which has "
                                    f"{count(self.count(11, r), 'position')}", rule)
                    elif self.sec(12, self.sec(11, r) + p) != s:
                        yield Fault(self.at(5, j * 3 + which), f"stop {s} names it as its {name} position in route {r}, where stop "
                                    f"{self.sec(12, self.sec(11, r) + p)} stands", rule)
        for s in range(self.stops):
            for j in self.under(4, s):
                if j > self.sec(4, s) and self.sec(5, j * 3) <= self.sec(5, j * 3 - 3):
                    yield Fault(self.at(5, j * 3), f"stop {s} names route {self.sec(5, j * 3 - 3)} in the row before", rule)
        named = {}
        for s in range(self.stops):
            for j in self.under(4, s):
                named.setdefault((s, self.sec(5, j * 3)), []).append((self.sec(5, j * 3 + 1), self.sec(5, j * 3 + 2)))
        for r in range(self.routes):
            for p, j in enumerate(self.under(11, r)):
                s = self.sec(12, j)
                if s < self.stops and not any(first <= p <= last for first, last in named.get((s, r), [])):
                    yield Fault(self.at(12, j), f"stop {s} stands at position {p} of route {r}, and no call of the stop says so", rule)

    def served(self):
        for s in range(self.stops):
            routes = [self.sec(5, j * 3) for j in self.under(4, s)]
            passed = any(r < self.routes and self.count(13, r) > 0 for r in routes)
            if self.sec(6, s) != int(passed):
                yield Fault(self.at(6, s), f"the mark of stop {s} should be {int(passed)}: {'a' if passed else 'no'} trip passes it",
                            "a stop's served mark is 1 where a trip passes it, else 0")

    def transfers(self):
        for s in range(self.stops):
            for j in self.under(7, s):
                if self.sec(8, j * 4) != s:
                    yield Fault(self.at(8, j * 4), f"a transfer from this stop stands under stop {s}",
                                "a transfer is listed under the stop that it leaves")
                if self.sec(8, j * 4 + 1) >= self.stops:
                    yield Fault(self.at(8, j * 4 + 1), f"a transfer from stop {s} leads there, and {there_are(self.stops, 'stop')}",
                                "a transfer leads to a stop")

    def walks(self):
        for s in range(self.stops):
            for j in self.under(9, s):
                if self.sec(10, j * 2) >= self.stops:
                    yield Fault(self.at(10, j * 2), f"a walk from stop {s} leads there, and {there_are(self.stops, 'stop')}",
                                "a walk leads to a stop")

    def area_stops(self):
        yield from self.in_range(18, self.stops, "stop")
        for a in range(self.areas):
            yield from self.once(18, self.under(17, a), "stop", "an area names no stop twice")

    def number_2(self):
        for part in (self.stop_list(), self.stations(), self.children(), self.in_range(12, self.stops, "stop"), self.route_trips(),
                     self.standing(), self.calls(), self.served(), self.transfers(), self.walks(), self.area_stops()):
            yield from part

    # numbers 3 to 5, on tables without a lower one: routes, then positions, then trips

    def calling(self, first):
        """Route, position, stop, and for each trip from the route's `first` its number, the one before it and where its times stand."""
        for r in range(self.routes):
            trips = [self.sec(14, i) for i in self.under(13, r)]
            for p, j in enumerate(self.under(11, r)):
                for i in range(first, len(trips)):
                    yield r, p, self.sec(12, j), trips[i], trips[i - 1], self.at(16, (self.sec(15, trips[i]) + p) * 2)

    def number_3(self):
        for r, p, s, v, _, here in self.calling(0):
            arrival, departure = self.w[here], self.w[here + 1]
            what = f"at stop {s}, position {p} of route {r}"
            if arrival < 1:
                yield Fault(here, f"trip {v} arrives at this moment {what}", "a moment of the timetable is 1 to 1,000,000")
            elif departure > 1_000_000:
                yield Fault(here + 1, f"trip {v} departs at this moment {what}", "a moment of the timetable is 1 to 1,000,000")
            elif arrival > departure:
                yield Fault(here, f"trip {v} arrives then {what}, and departs at {departure}",
                            "an arrival is not after the departure at its position")
            elif p + 1 < self.count(11, r) and departure > self.w[here + 2]:
                yield Fault(here + 1, f"trip {v} departs then {what}, and arrives at the next position at {self.w[here + 2]}",
                            "a departure is not after the next position's arrival")

    def number_4(self):
        for r, p, s, v, u, here in self.calling(1):
            above = self.at(16, (self.sec(15, u) + p) * 2)
            for k, what in ((0, "arrives"), (1, "departs")):
                if self.w[here + k] < self.w[above + k]:
                    yield Fault(here + k, f"trip {v} {what} then at stop {s}, position {p} of route {r}, and trip {u}, before it in the route, "
                                f"{what} at {self.w[above + k]}",
                                "at each position arrivals never fall from one trip of a route to the next, nor do departures")
                    break

    def distance(self, word, what):
        metres = struct.unpack("<f", struct.pack("<I", self.w[word]))[0]
        if not 0 <= metres <= 100_000:
            yield Fault(word, f"the metres of {what}, as an f32 {metres:g}", "a distance is 0 to 100,000 metres")

    def number_5(self):
        for j in range(self.rows(8)):
            what = f"the transfer from stop {self.sec(8, j * 4)} to stop {self.sec(8, j * 4 + 1)}"
            if self.sec(8, j * 4 + 2) != MAX and self.sec(8, j * 4 + 2) > 86_400:
                yield Fault(self.at(8, j * 4 + 2), f"the seconds of {what}", f"a stated span is 0 to 86,400 seconds, an unstated one is {MAX}")
            yield from self.distance(self.at(8, j * 4 + 3), what)
        for s in range(self.stops):
            for j in self.under(9, s):
                yield from self.distance(self.at(10, j * 2 + 1), f"the walk from stop {s} to stop {self.sec(10, j * 2)}")

    def place(self, word):
        """Where a word stands, in plain words."""
        if word is None:
            return "the whole file"
        if word < HEADER:
            return f"the header, word {word}"
        k = next(k for k in range(SECTIONS) if self.w[k] <= word < self.w[k + 1])
        row, column = divmod(word - self.w[k], wide(k))
        return f"section {k}, {NAMES[k]}, row {row}" + (f", {COLUMNS[k][column]}" if k in COLUMNS else "") + f"; word {word} of the tables"


def faults(words):
    """The lowest number of which the tables have a fault, and its faults; 0 and none."""
    tables = Tables(words)
    for k in range(1, 6):
        found = list(getattr(tables, f"number_{k}")())
        if found:
            return k, found
    return 0, []


def told(words):
    """The lowest number, and the text that says where its first fault stands."""
    k, found = faults(words)
    text = [f"{k}: {MEANS[k]}"]
    if found:
        fault = found[0]
        text.append(f"where: {Tables(words).place(fault.word)}")
        if fault.word is not None:
            text.append(f"value: {words[fault.word]}")
        text.append(f"what: {fault.says}")
        text.append(f"rule: {fault.rule}")
        if len(found) > 1:
            text.append(f"and {len(found) - 1} more of number {k}")
    return k, "\n".join(text) + "\n"


def read(path):
    """The words of a tables file: decimal numbers with spaces or line ends between them, and `net` before them or not."""
    words, first = [], True
    for line, text in enumerate(manners.lines(path), 1):
        for word in filter(None, text.split(" ")):
            value = number(word)
            if value is None and not (first and word == "net"):
                timetable = first and (word == "stops" or word.startswith("#"))
                hint = ": this looks like a timetable, and tools/timetable.py makes tables of it" if timetable else ""
                raise manners.Refused(path, line, f"after {count(len(words), 'word')}, {shown(word)} is no number{hint}")
            if value is not None and value > MAX:
                raise manners.Refused(path, line, f"after {count(len(words), 'word')}, {shown(word)} is above {MAX}, the most that a word holds")
            if value is not None:
                words.append(value)
            first = False
    return words


def tool(words):
    _, path = manners.arguments(words, {})
    k, text = told(read(path))
    return int(k > 0), text


if __name__ == "__main__":
    manners.run(__doc__, tool)
