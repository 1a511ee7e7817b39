#!/usr/bin/env python3
"""Turns a small readable timetable into the words of flat tables, or says which line of it is wrong.

    tools/timetable.py [--midnight SECONDS] FILE        prints one line, `net w0 w1 ..`; the file `-` is standard input

A line of a timetable; `#` begins a comment:
    stops N                          how many stops there are, numbered from 0; first of all
    route S S ..                     a route along these stops; its trips follow it, in the order of their times
    trip A/D A/D ..                  arrival and departure at each stop of the route above, or one moment for both;
                                     a moment is seconds, or H:MM:SS
    transfer S S SPAN                a listed footpath and its seconds; with `m` behind it metres: transfer 2 3 150m
    walk S S METRES                  a walk, in metres
    station S: S S ..                a station and the stops that are its children
    area S S ..                      an area and the stops that it names
Routes, trips and areas are numbered from 0, in the order of their lines.

--midnight SECONDS adds so many seconds to every moment. Tables hold the moments 1 to 1,000,000; with --midnight 86400, a day, a timetable may
have 0:00:00. Who reads times of such tables takes the seconds off again: `kiosk` does where it is asked with midnight:86400 too.

What the library's check would refuse (its numbers 1 to 5) is refused here, with the line. Status 0: written; 2: refused, and nothing is written.
"""
import re
import struct
import sys
from decimal import Decimal

sys.dont_write_bytecode = True
import manners
from manners import count, number, shown

MAX = 4294967295
# "Most:" of document 01
STOPS, ROUTES, POSITIONS, TRIPS, TIMES, TRANSFERS, WALKS, AREAS, ENTRIES = 4096, 1024, 128, 16384, 262144, 16384, 32768, 1024, 16384
LAST, LONGEST, FARTHEST = 1_000_000, 86_400, 100_000


class Wrong(Exception):
    """What is wrong with a line."""


def clock(seconds):
    return f"{seconds // 3600}:{seconds // 60 % 60:02}:{seconds % 60:02}"


def moment(text):
    """The seconds of a moment, written as seconds or as H:MM:SS."""
    parts = text.split(":")
    values = [number(part) for part in parts]
    # two digits each: 7:5:00 could be meant as 7:50:00
    if None in values or len(parts) not in (1, 3) or any(len(part) != 2 for part in parts[1:]):
        raise Wrong(f"{shown(text)} is no moment: give seconds, or H:MM:SS")
    if any(value > 59 for value in values[1:]):
        raise Wrong(f"{shown(text)} is no moment: minutes and seconds go from 0 to 59")
    return values[0] if len(parts) == 1 else values[0] * 3600 + values[1] * 60 + values[2]


def metres(text):
    """The metres of a distance, as the bits of an f32."""
    plain = text.removesuffix("m")
    if not re.fullmatch(r"[0-9]+(\.[0-9]+)?", plain):
        raise Wrong(f"{shown(text)} is no distance: give metres, as 150 or 90.5")
    if Decimal(plain) > FARTHEST:
        raise Wrong(f"{shown(text)} is too far: a distance is 0 to {FARTHEST:,} metres")
    return struct.unpack("<I", struct.pack("<f", float(plain)))[0]


def span(text):
    """The seconds of a stated span."""
    value = number(text)
    if value is None:
        raise Wrong(f"{shown(text)} is no span: give whole seconds, as 30, or metres, as 150m")
    if value > LONGEST:
        raise Wrong(f"{shown(text)} is too long: a span is 0 to {LONGEST:,} seconds, a day")
    return value


def below(many, most, what):
    if many > most:
        raise Wrong(f"there are more than {most:,} {what}, and {most:,} is the most")


class Timetable:
    def __init__(self, midnight=0, first=1, last=LAST):
        """`first` and `last` bound the moments, once `midnight` is added."""
        self.midnight, self.first, self.last = midnight, first, last
        self.stops, self.routes, self.times, self.areas = None, [], [], []
        self.line, self.stops_line, self.route_line, self.trip_line, self.parent_line = 0, 0, 0, 0, {}
        self.calls = self.listed = self.walked = self.entries = 0

    def stop(self, text):
        value = number(text)
        if value is None or value >= self.stops:
            raise Wrong(f"{shown(text)} is no stop: " + (f"the stops are 0 to {self.stops - 1}" if self.stops else "there are none"))
        return value

    def moment(self, text):
        value = moment(text)
        if not self.first <= value + self.midnight <= self.last:
            bounds = f"{max(0, self.first - self.midnight):,} to {self.last - self.midnight:,} seconds"
            hint = f" with --midnight {self.midnight}" if self.midnight else "; with --midnight 86400 it may be 0" if value == 0 else ""
            raise Wrong(f"{shown(text)} is out of range: a moment is {bounds}{hint}")
        return value

    def call(self, text):
        """The arrival and the departure at one stop of a trip."""
        parts = text.split("/")
        if len(parts) > 2 or "" in parts:
            raise Wrong(f"{shown(text)} is no time at a stop: give arrival/departure, or one moment for both")
        arrival = self.moment(parts[0])
        return arrival, self.moment(parts[1]) if len(parts) == 2 else arrival

    def add(self, words):
        """Takes one more line."""
        self.line += 1
        if not words:
            return
        kind, rest = words[0], words[1:]
        known = {"stops": self.add_stops, "route": self.add_route, "trip": self.add_trip, "transfer": self.add_transfer, "walk": self.add_walk,
                 "station": self.add_station, "area": self.add_area}
        if kind == "net":
            raise Wrong("these look like tables already: a timetable begins with `stops N`")
        if kind not in known:
            raise Wrong(f"`{shown(kind)}` begins no line of a timetable: there are {', '.join(list(known)[:-1])} and area")
        if self.stops is None and kind != "stops":
            raise Wrong("the first line is `stops N`, how many stops there are")
        known[kind](rest)

    def add_stops(self, rest):
        if self.stops is not None:
            raise Wrong(f"`stops` stands in line {self.stops_line} already, and may stand once")
        if len(rest) != 1 or number(rest[0]) is None:
            raise Wrong("`stops` takes one number, how many stops there are")
        below(number(rest[0]), STOPS, "stops")
        self.stops, self.stops_line = number(rest[0]), self.line
        self.parent = [MAX] * self.stops
        self.children, self.transfers, self.walks = ([[] for _ in range(self.stops)] for _ in range(3))

    def add_route(self, rest):
        if not rest:
            raise Wrong("a route names its stops, one at least")
        below(len(rest), POSITIONS, "stops in a route")
        below(len(self.routes) + 1, ROUTES, "routes")
        self.routes.append(([self.stop(s) for s in rest], []))
        self.route_line = self.line

    def add_trip(self, rest):
        if not self.routes:
            raise Wrong("a trip stands below its route, and there is no route above it")
        stops, trips = self.routes[-1]
        if len(rest) != len(stops):
            raise Wrong(f"a trip has one time for each stop of its route: the route in line {self.route_line} has {count(len(stops), 'stop')}, "
                        f"this trip has {count(len(rest), 'time')}")
        below(len(self.times) + 1, TRIPS, "trips")
        below(self.calls + len(rest), TIMES, "stop times")
        times = [self.call(text) for text in rest]
        self.along(stops, times)
        if trips:
            self.behind(stops, self.times[trips[-1]], times)
        trips.append(len(self.times))
        self.times.append(times)
        self.calls += len(times)
        self.trip_line = self.line

    def along(self, stops, times):
        """Times never fall along a trip."""
        for p, (arrival, departure) in enumerate(times):
            if p and arrival < times[p - 1][1]:
                raise Wrong(f"the trip arrives at stop {stops[p]} at {clock(arrival)}, before it leaves stop {stops[p - 1]} at "
                            f"{clock(times[p - 1][1])}: times never fall along a trip")
            if departure < arrival:
                raise Wrong(f"the trip leaves stop {stops[p]} at {clock(departure)}, before it arrives there at {clock(arrival)}: write "
                            "arrival/departure")

    def behind(self, stops, above, times):
        """At no stop is a trip before the trip above it."""
        for p, (one, two) in enumerate(zip(above, times)):
            for what, before, now in (("arrives at", one[0], two[0]), ("leaves", one[1], two[1])):
                if now < before:
                    raise Wrong(f"the trip {what} stop {stops[p]} at {clock(now)}, before the trip in line {self.trip_line} does at "
                                f"{clock(before)}: trips of a route stand in the order of their times; one that overtakes another needs a route "
                                "line of its own")

    def add_transfer(self, rest):
        if len(rest) != 3:
            raise Wrong("`transfer` takes two stops and seconds or metres, as `transfer 2 3 30` or `transfer 2 3 150m`")
        here, there, far = self.stop(rest[0]), self.stop(rest[1]), rest[2]
        self.listed += 1
        below(self.listed, TRANSFERS, "transfers")
        self.transfers[here].append((there, MAX, metres(far)) if far.endswith("m") else (there, span(far), 0))

    def add_walk(self, rest):
        if len(rest) != 3:
            raise Wrong("`walk` takes two stops and metres, as `walk 6 7 90.5`")
        here, there = self.stop(rest[0]), self.stop(rest[1])
        self.walked += 1
        below(self.walked, WALKS, "walks")
        self.walks[here].append((there, metres(rest[2])))

    def add_station(self, rest):
        if len(rest) < 2 or not rest[0].endswith(":"):
            raise Wrong("`station` takes a stop, a colon and the stops that are its children, as `station 0: 1 2`")
        station = self.stop(rest[0][:-1])
        for child in map(self.stop, rest[1:]):
            if child in self.parent_line:
                raise Wrong(f"stop {child} is a child of station {self.parent[child]} already (line {self.parent_line[child]}): a stop has one "
                            "station, and is named there once")
            self.parent[child], self.parent_line[child] = station, self.line
            self.children[station].append(child)

    def add_area(self, rest):
        stops = {}
        for s in map(self.stop, rest):
            if s in stops:
                raise Wrong(f"this area names stop {s} twice")
            stops[s] = True
        below(len(self.areas) + 1, AREAS, "areas")
        self.entries += len(stops)
        below(self.entries, ENTRIES, "stops named by areas")
        self.areas.append(list(stops))

    def words(self):
        """The 20 sections in their order (crates/repository/specs/Sections.antt), and the header before them."""
        calls = [[] for _ in range(self.stops)]
        served = [0] * self.stops
        standing = {}       # of each trip its route, and its place among the trips of all routes
        for r, (stops, trips) in enumerate(self.routes):
            first, last = {}, {}
            for p, s in enumerate(stops):
                first.setdefault(s, p)
                last[s] = p
            for s in first:
                calls[s].append((r, first[s], last[s]))
                served[s] |= bool(trips)
            for v in trips:
                standing[v] = (r, len(standing))
        flat = lambda rows: [x for row in rows for x in row]

        def starts(lists):
            at = [0]
            for row in lists:
                at.append(at[-1] + len(row))
            return at

        sections = [
            list(range(self.stops)), self.parent, starts(self.children), flat(self.children),
            starts(calls), flat(flat(calls)), [int(x) for x in served],
            starts(self.transfers), [x for s in range(self.stops) for row in self.transfers[s] for x in (s, *row)],
            starts(self.walks), flat(flat(self.walks)),
            starts([s for s, _ in self.routes]), flat(s for s, _ in self.routes),
            starts([t for _, t in self.routes]), flat(t for _, t in self.routes),
            starts(self.times), [t + self.midnight for t in flat(flat(self.times))], starts(self.areas), flat(self.areas),
            flat(standing[v] for v in range(len(self.times)))]
        header = [21]
        for section in sections:
            header.append(header[-1] + len(section))
        return header + flat(sections)


def read(path, table):
    """The timetable of a file."""
    for line in manners.lines(path):
        try:
            table.add(line.lstrip("\ufeff").split("#")[0].split())     # some editors begin a file with this mark
        except Wrong as why:
            raise manners.Refused(path, table.line, why)
    if table.stops is None:
        raise manners.Refused(path, None, "this timetable is empty: its first line is `stops N`, how many stops there are")
    return table


def tool(words):
    given, path = manners.arguments(words, {"--midnight": manners.seconds_of_midnight})
    table = read(path, Timetable(given.get("--midnight", 0)))
    return 0, " ".join(["net", *map(str, table.words())]) + "\n"


if __name__ == "__main__":
    manners.run(__doc__, tool)
