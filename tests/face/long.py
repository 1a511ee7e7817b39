#!/usr/bin/env python3
"""A timetable whose journey from stop 0 to stop 4095 has 15 rides and 4,080 footpaths: as many legs as there are stops, but one.

Fourteen rides lead from stop 0 to stop 14. From there buses go to each other stop, two seconds apart. Each of these stops has a footpath of one
second to the next, which comes there before the bus does: so the way back from the last goes over all of them."""
STOPS, HUBS, ALONG = 4096, 14, 127

print("stops", STOPS)
for hub in range(HUBS):
    print(f"route {hub} {hub + 1}\ntrip {10 * hub + 10} {10 * hub + 15}")
rest = range(HUBS + 1, STOPS)
for first in range(rest[0], STOPS, ALONG):
    stops = [s for s in range(first, first + ALONG) if s in rest]
    print("route", HUBS, *stops)
    print("trip", 1000, *(1000 + 2 * s for s in stops))
for stop in rest[:-1]:
    print(f"transfer {stop} {stop + 1} 1")
