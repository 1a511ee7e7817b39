#!/usr/bin/env python3
"""flatten.py FILE: writes the networks and queries of examples.txt as lines `net ..` and `q ..`, each under its name.

One line is one thing, as tools/timetable.py reads it, but for five: `network NAME` begins a network; `parent STOP STATION`, where stations list their
children in the order of these lines; `transfer FROM TO SPAN|- [METRES]`, a stated or unstated span and a distance; `walk FROM TO METRES`, where metres
may be -0.0; `ask NAME QUERY`.
"""
import os
import struct
import sys

sys.dont_write_bytecode = True
sys.path.insert(0, os.path.join(os.path.dirname(os.path.abspath(__file__)), "..", "tools"))
from timetable import MAX, Timetable


def bits(metres):
    return struct.unpack("<I", struct.pack("<f", float(metres)))[0]


def flattened(lines):
    """The lines of cases.txt."""
    table, written = None, False
    for line in lines:
        words = line.split()
        if not words or words[0] == "#":
            continue
        if words[0] == "network":
            table, written = Timetable(), False
            yield "# " + line
        elif words[0] == "parent":
            stop, station = map(int, words[1:])
            table.parent[stop] = station
            table.children[station].append(stop)
        elif words[0] == "transfer":
            start, to, span, *far = words[1:]
            table.transfers[int(start)].append((int(to), MAX if span == "-" else int(span), bits(far[0]) if far else 0))
        elif words[0] == "walk":
            table.walks[int(words[1])].append((int(words[2]), bits(words[3])))
        elif words[0] == "ask":
            if not written:
                yield " ".join(["net", *map(str, table.words())])
                written = True
            yield "# " + words[1]
            yield " ".join(["q", *words[2:]])
        else:
            table.add(words)


with open(sys.argv[1]) as text:
    for line in flattened(text.read().splitlines()):
        print(line)
