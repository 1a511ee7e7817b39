"""The library's check of tables, written a second time and by other means: what the routes say is worked out, and the rest compared with it.

Of document 01's numbers 1 to 5 the lowest that applies is given, and 0 where none does. tests/tools.py holds it and tools/fault.py to each other.
"""
import struct

MAX = 4294967295
# the sections by their numbers
(STOP_LIST, STATIONS, CHILD_STARTS, CHILDREN, CALL_STARTS, CALLS, SERVED, TRANSFER_STARTS, TRANSFERS, WALK_STARTS, WALKS, ROUTE_STOP_STARTS, ROUTE_STOPS,
 ROUTE_TRIP_STARTS, ROUTE_TRIPS, TIME_STARTS, TIMES, AREA_STARTS, AREA_STOPS, STANDING) = range(20)
SECTIONS, HEADER = 20, 21      # how many there are, and the words of the header


def number(w):
    if len(w) < HEADER or w[0] != HEADER or w[SECTIONS] != len(w) or sorted(w[:HEADER]) != w[:HEADER]:
        return 1
    part = [w[w[k]:w[k + 1]] for k in range(SECTIONS)]
    n = [len(p) for p in part]
    s, r, t, a = n[0], n[11] - 1, n[15] - 1, n[17] - 1
    if min(r, t, a) < 0 or n[5] % 3 or n[8] % 4 or n[10] % 2 or n[16] % 2:
        return 1
    if [n[k] for k in (1, 2, 4, 6, 7, 9, 13, 14, 19)] != [s, s + 1, s + 1, s, s + 1, s + 1, r + 1, t, 2 * t]:
        return 1
    if s > 4096 or r > 1024 or t > 16384 or n[16] > 524288 or n[8] > 65536 or n[10] > 65536 or a > 1024 or n[18] > 16384:
        return 1
    lists = {}
    for k, wide in ((2, 1), (4, 3), (7, 4), (9, 2), (11, 1), (13, 1), (15, 2), (17, 1)):
        at = part[k]
        if at[0] or at[-1] * wide != n[k + 1] or sorted(at) != at:
            return 1
        rows = [tuple(part[k + 1][i:i + wide]) for i in range(0, n[k + 1], wide)]
        lists[k] = [rows[i:j] for i, j in zip(at, at[1:])]
    routes = [[x for x, in row] for row in lists[11]]
    if any(not 1 <= len(stops) <= 128 for stops in routes):
        return 1
    trips = [[x for x, in row] for row in lists[13]]
    if part[0] != list(range(s)) or any(x >= s for stops in routes for x in stops) or sorted(part[14]) != list(range(t)):
        return 2
    if any(len(lists[15][v]) != len(stops) for stops, row in zip(routes, trips) for v in row):
        return 2
    standing = dict(zip(part[14], zip((k for k, row in enumerate(trips) for _ in row), range(t))))
    if part[19] != [x for v in range(t) for x in standing[v]]:
        return 2
    calls = [[(k, stops.index(x), max(p for p, y in enumerate(stops) if y == x)) for k, stops in enumerate(routes) if x in stops] for x in range(s)]
    served = [int(any(trips[k] for k, _, _ in row)) for row in calls]
    under = [sorted(c for c in range(s) if part[1][c] == p) for p in range(s)]
    if lists[4] != calls or part[6] != served or [sorted(c for c, in row) for row in lists[2]] != under or any(s <= p < MAX for p in part[1]):
        return 2
    if any(row[0] != x or row[1] >= s for x in range(s) for row in lists[7][x]) or any(to >= s for row in lists[9] for to, _ in row):
        return 2
    if any(len(set(row)) < len(row) or any(x >= s for x, in row) for row in lists[17]):
        return 2
    for v in range(t):
        moments = [m for row in lists[15][v] for m in row]
        if moments != sorted(moments) or moments[0] < 1 or moments[-1] > 1_000_000:
            return 3
    for row in trips:
        if any(x > y for u, v in zip(row, row[1:]) for one, two in zip(lists[15][u], lists[15][v]) for x, y in zip(one, two)):
            return 4
    floats = [struct.unpack("<f", struct.pack("<I", row[-1]))[0] for k in (7, 9) for one in lists[k] for row in one]
    spans = [row[2] for one in lists[7] for row in one]
    return 5 if any(not 0 <= x <= 100_000 for x in floats) or any(86_400 < x < MAX for x in spans) else 0
