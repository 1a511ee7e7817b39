#!/usr/bin/env python3
"""The judge in Python beside the C face: `judge lines COUNT SEED | judge.py` (judge.sh builds the program).

Lines: `net w0 w1 ..`, the words of tables; then, for each journey judged in them, `j fromkind from tokind to when moment walks BYTES NUMBER [TOLD]`,
the bytes in hexadecimal digits or `-`. Each is judged here once more, from request 2's sentences and by other means than in C: all rides and footpaths
of a network are written out as sets, and a leg is looked for there. The tables' own number is that of tests/second_check.py.
"""
import math
import os
import struct
import sys
from collections import Counter

sys.path.insert(0, os.path.join(os.path.dirname(os.path.abspath(__file__)), "..", "tests"))
import second_check as layout

NONE = 4294967295
RIDE, TRANSFER, WALK = 1, 2, 3
STOP, AREA = 0, 1
BODY = {RIDE: struct.Struct("<5I"), TRANSFER: struct.Struct("<4I"), WALK: struct.Struct("<4I")}


def metres(word):
    return struct.unpack("<f", struct.pack("<I", word))[0]


def walking(word):
    """The seconds of a distance: divided by 1.5 metres a second, rounded to a float once, then raised."""
    return math.ceil(struct.unpack("<f", struct.pack("<f", metres(word) / 1.5))[0])


class Network:
    def __init__(self, w):
        self.number = layout.number(w)
        if self.number:
            return

        def listed(starts, wide):
            at, rows = w[w[starts]:w[starts + 1]], w[w[starts + 1]:w[starts + 2]]
            return [[tuple(rows[i:i + wide]) for i in range(wide * a, wide * b, wide)] for a, b in zip(at, at[1:])]

        parents = w[w[layout.STATIONS]:w[layout.STATIONS + 1]]
        served = w[w[layout.SERVED]:w[layout.SERVED + 1]]
        children = [[] for _ in parents]
        for s, parent in enumerate(parents):
            if parent != NONE:
                children[parent].append(s)
        # what each place stands for
        self.places = {STOP: [], AREA: []}
        for s, parent in enumerate(parents):
            self.places[STOP].append(set(children[parent] if parent != NONE else children[s] or [s]))
        for named in listed(layout.AREA_STARTS, 1):
            self.places[AREA].append({c for s, in named for c in children[s] if served[c]})
        # all footpaths: kind, from, to, span
        self.footpaths = set()
        for s, rows in enumerate(listed(layout.TRANSFER_STARTS, 4)):
            self.footpaths |= {(TRANSFER, s, to, walking(far) if span == NONE else span) for _, to, span, far in rows}
        for s, rows in enumerate(listed(layout.WALK_STARTS, 2)):
            self.footpaths |= {(WALK, s, to, walking(far)) for to, far in rows}
        # all rides: from, to, trip, departure, arrival
        self.rides = set()
        times = listed(layout.TIME_STARTS, 2)
        for stops, trips in zip(listed(layout.ROUTE_STOP_STARTS, 1), listed(layout.ROUTE_TRIP_STARTS, 1)):
            for trip, in trips:
                calls = [(s, arrival, departure) for (s,), (arrival, departure) in zip(stops, times[trip])]
                for i, (here, _, departure) in enumerate(calls):
                    self.rides |= {(here, there, trip, departure, arrival) for there, arrival, _ in calls[i + 1:]}


def legs_of(data):
    """Tuples of kind, from, to, trip, departure, arrival; or the offset of what is no leg."""
    legs, at = [], 0
    while at < len(data):
        body = BODY.get(data[at])
        if body is None or at + 1 + body.size > len(data):
            return at
        fields = body.unpack_from(data, at + 1)
        legs.append((data[at], *fields) if len(fields) == 5 else (data[at], *fields[:2], None, *fields[2:]))
        at += 1 + body.size
    return legs


def judge(network, query, data):
    """The number and what is told."""
    from_kind, from_number, to_kind, to_number, when, moment, walks = query
    if network.number:
        return (network.number,)
    try:
        origins, goals = network.places[from_kind][from_number], network.places[to_kind][to_number]
    except (KeyError, IndexError):
        return (7,)
    if not 1 <= moment <= 1_000_000 or when not in (0, 1) or walks not in (0, 1, 2):
        return (8,)
    if not origins or not goals:
        return (9,)
    legs = legs_of(data)
    if isinstance(legs, int):
        return (13, legs)
    return (0, int(is_journey(network, legs, origins, goals, when, moment, walks != 2)))


def is_journey(network, legs, origins, goals, when, moment, walks):
    rides = [leg for leg in legs if leg[0] == RIDE]
    if not 1 <= len(rides) <= 15:
        return False
    for kind, here, there, trip, departure, arrival in legs:
        if kind == RIDE and (here, there, trip, departure, arrival) not in network.rides:
            return False
        if kind != RIDE and (kind, here, there, arrival - departure) not in network.footpaths:
            return False
        if kind == WALK and not walks:
            return False
    for one, two in zip(legs, legs[1:]):
        if one[2] != two[1] or one[5] > two[4]:
            return False
    first, last = legs[0], legs[-1]
    if first[1] not in origins or last[2] not in goals:
        return False
    if when == 0:
        return first[0] == RIDE and first[4] >= moment
    return last[0] == RIDE and last[5] <= moment


def main():
    network, networks, given, differ = None, 0, Counter(), 0
    for line in sys.stdin:
        what, *words = line.split()
        if what == "net":
            network, networks = Network([int(w) for w in words]), networks + 1
        elif what == "j":
            data = b"" if words[7] == "-" else bytes.fromhex(words[7])
            here, there = judge(network, [int(w) for w in words[:7]], data), tuple(int(w) for w in words[8:])
            given[("yes" if here[1] else "no") if here[0] == 0 else str(here[0])] += 1
            if here != there:
                differ += 1
                if differ <= 3:
                    print(f"differs: Python {here}, C {there}: {line.strip()}")
        else:
            print(f"no line of the program's: {line.strip()}")
            return 1
    kinds = [kind for kind in ("yes", "no", "13", "1", "2", "3", "4", "5", "7", "8", "9") if given[kind]]
    print(f"{sum(given.values())} journeys judged by Python in {networks} networks:", ", ".join(f"{kind} {given[kind]}" for kind in kinds) + f"; {differ} differ")
    return differ > 0 or not given["yes"] or not given["no"]


if __name__ == "__main__":
    sys.exit(main())
