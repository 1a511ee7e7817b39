#!/usr/bin/env python3
"""Damaged tables and the number that document 01's check gives them, by a second writing of the check (tests/second_check.py).

  damage.py list              the short list that the gate replays: net lines to stdout, numbers to stderr
  damage.py held              that crates/checktables/stdin and stdout are this list, byte for byte
  damage.py run COUNT SEED    COUNT damaged tables through the program, compared number by number

The program is crates/checktables/out/checktables; PROGRAM may name another command that runs it. The networks that are damaged are small nasty ones of this seed
(compare/generate.sh).
"""
import os, random, shlex, struct, subprocess, sys

sys.dont_write_bytecode = True  # no folder of compiled scripts in the tree
here = os.path.dirname(os.path.abspath(__file__))
root = os.path.join(here, "..")
sys.path.insert(0, os.path.join(root, "tools"))
from damaging import damaged
from second_check import (AREA_STOPS, CALLS, CALL_STARTS, CHILDREN, HEADER, MAX, ROUTE_STOPS, ROUTE_STOP_STARTS, ROUTE_TRIPS, ROUTE_TRIP_STARTS,
                          SECTIONS, SERVED, STANDING, STATIONS, STOP_LIST, TIMES, TIME_STARTS, TRANSFERS, WALKS, number)
from timetable import Timetable

NETWORKS = 5000  # that are damaged in a run


def bits(metres):
    return struct.unpack("<I", struct.pack("<f", metres))[0]


def build(stops, routes, transfers=(), walks=(), station=None, areas=()):
    """The words of a network, by the writer that users have. It is filled here and not read, so a count may be over its limit.
    routes: (stops, [trip rows]); trips are numbered as they come. transfers: from, to, span, metres; walks: from, to, metres."""
    table = Timetable()
    table.stops, table.parent, table.areas = stops, station or [MAX] * stops, areas
    table.children = [[c for c in range(stops) if table.parent[c] == s] for s in range(stops)]
    table.transfers = [[(to, span, bits(metres)) for at, to, span, metres in transfers if at == s] for s in range(stops)]
    table.walks = [[(to, bits(metres)) for at, to, metres in walks if at == s] for s in range(stops)]
    for along, rows in routes:
        table.routes.append((along, list(range(len(table.times), len(table.times) + len(rows)))))
        table.times += rows
    return table.words()


def changed(words, section, place, value):
    w = list(words)
    w[w[section] + place] = value
    return w


def ended(words, more):
    """The tables with a longer or a shorter last section, as the header says too."""
    w = words[:more] if more < 0 else words + [0] * more
    w[SECTIONS] = len(w)
    return w


def of_layout_20(words):
    """The tables as they were before the last section."""
    return [k - 1 for k in words[:HEADER - 1]] + words[HEADER:words[STANDING]]


def listed():
    """(comment, words): N and M, and for each number damaged copies of N, among them each boundary."""
    calls = [(100, 100), (200, 210), (300, 300)]
    later = [(400, 400), (500, 510), (600, 600)]
    last = ([3, 4], [[(350, 350), (450, 450)], [(650, 650), (750, 750)]])
    n = build(5, [([0, 1, 2], [calls, later]), last], [(2, 3, 30, 0.0)])
    m = build(3, [([0, 1, 2], [[(100, 100), (300, 300), (400, 400)]]), ([0, 1], [[(150, 150), (200, 200)]])])
    walked = build(5, [([0, 1, 2], [calls, later]), last], [(2, 3, 30, 12.0)], [(3, 2, 12.0)], [MAX, MAX, MAX, 2, 2], [[2], [0, 2]])
    one = build(2, [([0, 1], [[(1, 1), (1, 1_000_000)]])])
    yield "N", n
    yield "M", m
    yield "N with a station, two areas and a walk", walked
    yield "no stop at all", build(0, [])
    # 1
    yield "no word", []
    yield "20 words", n[:20]
    yield "a header that begins at 22", [22] + n[1:]
    yield "N in the layout before, of 20 words of header", of_layout_20(n)
    yield "no stop at all in the layout before", of_layout_20(build(0, []))
    yield "N in the layout before, under this one's number", [HEADER] + of_layout_20(n)[1:]
    yield "one word more than the header says", n + [0]
    yield "a section that falls", changed(n, STOP_LIST, 3 - HEADER, 5)
    yield "a starts section that begins with 1", changed(n, CALL_STARTS, 0, 1)
    yield "a starts section that ends short", changed(n, ROUTE_TRIP_STARTS, 2, 3)
    yield "a starts section that falls", changed(n, TIME_STARTS, 1, 9)
    yield "a route without a stop", changed(n, ROUTE_STOP_STARTS, 1, 0)
    long = list(range(128))
    yield "128 positions in a route", build(129, [(long, [[(5, 5)] * 128])])
    yield "129 positions in a route", build(129, [(long + [128], [[(5, 5)] * 129])])
    yield "1,024 routes", build(1, [([0], [])] * 1024)
    yield "1,025 routes", build(1, [([0], [])] * 1025)
    yield "1,024 areas", build(1, [], areas=[[]] * 1024)
    yield "1,025 areas", build(1, [], areas=[[]] * 1025)
    yield "the standing of the last trip cut by a word", ended(n, -1)
    yield "the standing of the last trip left out", ended(n, -2)
    yield "a word more of standings", ended(n, 1)
    yield "a row more of standings than trips", ended(n, 2)
    # 2
    yield "the stop list out of place", changed(n, STOP_LIST, 1, 2)
    yield "a station out of range", changed(n, STATIONS, 0, 5)
    yield "a station that does not list its child", changed(walked, STATIONS, 3, MAX)
    yield "a child listed twice", changed(walked, CHILDREN, 1, 3)
    yield "a stop of a route out of range", changed(n, ROUTE_STOPS, 2, 5)
    yield "a trip in two routes", changed(n, ROUTE_TRIPS, 2, 0)
    yield "a trip out of range", changed(n, ROUTE_TRIPS, 2, 4)
    idle = build(5, [([0, 1, 2], [calls, later]), ([4, 0], []), last])
    yield "a route without a trip between two others", idle
    yield "a trip that stands in no route there is", changed(n, STANDING, 0, 2)
    yield "a trip that stands in route MAX", changed(n, STANDING, 0, MAX)
    yield "a trip that stands in the route before its own", changed(n, STANDING, 4, 0)
    yield "a trip that stands in the route behind its own", changed(n, STANDING, 2, 1)
    yield "a trip that stands in a route without a trip", changed(idle, STANDING, 4, 1)
    yield "a trip at the first place of the next route", changed(n, STANDING, 3, 2)
    yield "a trip at a place behind all", changed(n, STANDING, 7, 4)
    yield "a trip at place MAX", changed(n, STANDING, 7, MAX)
    yield "a trip at the place of another in its route", changed(n, STANDING, 1, 1)
    yield "two trips of a route at each other's places", changed(changed(n, STANDING, 1, 1), STANDING, 3, 0)
    yield "two trips of a route exchanged, and not their standings", changed(changed(n, ROUTE_TRIPS, 0, 1), ROUTE_TRIPS, 1, 0)
    yield "a call that names another route", changed(n, CALLS, 0, 1)
    yield "a call's first position", changed(n, CALLS, 4, 0)
    yield "a call's last position", changed(n, CALLS, 5, 2)
    yield "a served mark left unset", changed(n, SERVED, 0, 0)
    yield "a served mark of 2", changed(n, SERVED, 0, 2)
    yield "a transfer under another stop", changed(n, TRANSFERS, 0, 1)
    yield "a transfer to nowhere", changed(n, TRANSFERS, 1, 5)
    yield "a walk to nowhere", changed(walked, WALKS, 0, 5)
    yield "an area that names a stop twice", changed(walked, AREA_STOPS, 1, 2)
    yield "an area that names no stop there is", changed(walked, AREA_STOPS, 0, 5)
    # 3
    yield "a moment of 1 and one of 1,000,000", one
    yield "a moment of 0", changed(one, TIMES, 0, 0)
    yield "a moment of 1,000,001", changed(one, TIMES, 3, 1_000_001)
    yield "an arrival after its departure", changed(n, TIMES, 2, 211)
    yield "a departure after the next arrival", changed(n, TIMES, 3, 301)
    yield "a departure at the next arrival", changed(n, TIMES, 3, 300)
    yield "N with a first moment of 0", changed(n, TIMES, 0, 0)
    yield "N with a last moment of 1,000,001", changed(n, TIMES, 19, 1_000_001)
    # 4
    two = build(2, [([0, 1], [[(10, 20), (30, 40)], [(10, 20), (30, 40)]])])
    yield "two trips at the same moments", two
    yield "arrivals out of order by one second", changed(two, TIMES, 4, 9)
    yield "departures out of order by one second", changed(two, TIMES, 5, 19)
    yield "arrivals out of order at the last position", changed(two, TIMES, 6, 29)
    turned = changed(changed(n, ROUTE_TRIPS, 0, 1), ROUTE_TRIPS, 1, 0)
    yield "two trips of a route exchanged, and their standings", changed(changed(turned, STANDING, 1, 1), STANDING, 3, 0)
    same = build(5, [([0, 1, 2], [calls, calls]), last], [(2, 3, 30, 0.0)])
    yield "N with trip 1 at trip 0's moments", same
    yield "and an arrival one second sooner", changed(same, TIMES, 8, 199)
    yield "and a departure one second sooner", changed(same, TIMES, 9, 209)
    yield "and the last arrival one second sooner", changed(same, TIMES, 10, 299)
    # 5
    for what, value in (("NaN", 0x7FC00000), ("-0.0", 0x80000000), ("100,000", bits(100_000.0)),
                        ("the next float above 100,000", bits(100_000.0) + 1), ("-1", bits(-1.0)), ("infinity", 0x7F800000)):
        yield "a distance of " + what + " beside a stated span", changed(walked, TRANSFERS, 3, value)
        yield "a walk of " + what, changed(walked, WALKS, 1, value)
    for what, value in (("86,400", 86_400), ("86,401", 86_401), ("MAX", MAX), ("MAX - 1", MAX - 1), ("0", 0)):
        yield "a span of " + what, changed(n, TRANSFERS, 2, value)
    yield "N with a distance of NaN", changed(n, TRANSFERS, 3, 0x7FC00000)


def net(words):
    return " ".join(["net", *map(str, words)]) + "\n"


def the_list():
    """The list as the program reads it, and the numbers as it writes them."""
    some = list(listed())
    return "".join(f"# {what}\n{net(w)}" for what, w in some), "".join(f"{number(w)}\n" for _, w in some)


def held():
    for name, made in zip(("stdin", "stdout"), the_list()):
        with open(os.path.join(root, "crates/checktables", name)) as kept:
            if kept.read() != made:
                sys.exit(f"crates/checktables/{name} is not what tests/damage.py makes")
    print("crates/checktables: its list is as tests/damage.py makes it,", sum(1 for _ in listed()), "tables with their numbers")


def program():
    if "PROGRAM" in os.environ:
        return shlex.split(os.environ["PROGRAM"])
    subprocess.run([os.path.join(root, "tools/build.sh"), "checktables"], check=True)
    return [os.path.join(root, "tests/run.sh"), "checktables"]


def run(count, seed):
    made = subprocess.run([os.path.join(root, "compare/generate.sh"), str(seed), str(NETWORKS)], stdout=subprocess.PIPE, check=True).stdout.decode()
    networks = [[int(x) for x in line.split()[1:]] for line in made.splitlines() if line.startswith("net ")]
    rng, differ, by, done = random.Random(seed), 0, [0] * 6, 0
    while done < count:
        some = [damaged(rng, rng.choice(networks)) for _ in range(min(2000, count - done))]
        got = subprocess.run(program(), input="".join(map(net, some)).encode(), stdout=subprocess.PIPE, check=True).stdout.split()
        if len(got) != len(some):
            sys.exit("as many answers as tables were wanted")
        for w, b in zip(some, map(int, got)):
            a = number(w)
            by[a] += 1
            if a != b:
                differ += 1
                print("want", a, "got", b, w)
        done += len(some)
    print(done, "tables,", differ, "differ; by number 0 to 5:", *by)
    sys.exit(differ > 0)


def main():
    words = sys.argv[1:]
    if words == ["list"]:
        lines, numbers = the_list()
        print(lines, end="")
        print(numbers, end="", file=sys.stderr)
    elif words == ["held"]:
        held()
    elif len(words) == 3 and words[0] == "run":
        run(int(words[1]), int(words[2]))
    else:
        sys.exit(__doc__)


main()
