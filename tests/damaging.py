"""Tables with something changed: their words, their rows or their length. tests/tools.py and tests/damage.py hold checks to each other on them."""
from second_check import (AREA_STARTS, CALL_STARTS, CALLS, CHILD_STARTS, HEADER, MAX, ROUTE_STOP_STARTS, ROUTE_TRIP_STARTS, ROUTE_TRIPS, SECTIONS,
                          STANDING, TIME_STARTS, TIMES, TRANSFER_STARTS, TRANSFERS, WALK_STARTS, WALKS)


def resized(rng, w):
    """Tables with one row of a list said twice, or left out; all else fits."""
    k, wide = rng.choice(((CHILD_STARTS, 1), (CALL_STARTS, 3), (TRANSFER_STARTS, 4), (WALK_STARTS, 2), (ROUTE_STOP_STARTS, 1), (ROUTE_TRIP_STARTS, 1),
                          (TIME_STARTS, 2), (AREA_STARTS, 1)))
    part = [w[w[j]:w[j + 1]] for j in range(SECTIONS)]
    entries = [i for i in range(len(part[k]) - 1) if part[k][i] < part[k][i + 1]]
    if not entries:
        return w
    i = rng.choice(entries)
    row = rng.randrange(part[k][i], part[k][i + 1]) * wide
    more = rng.choice((1, -1))
    part[k + 1][row:row + wide] = part[k + 1][row:row + wide] * (1 + more)
    part[k] = part[k][:i + 1] + [at + more for at in part[k][i + 1:]]
    header = [HEADER]
    for section in part:
        header.append(header[-1] + len(section))
    return header + [x for section in part for x in section]


def damaged(rng, w):
    """Tables with some of their words, or their length, changed."""
    w = list(w)
    if rng.random() < 0.15:
        return resized(rng, w)
    if rng.random() < 0.08:
        return w[:rng.randrange(len(w) + 1)] + [rng.randrange(30) for _ in range(rng.randrange(3))]
    calls = [at for at in range(w[CALLS], w[CALLS + 1], 3) if w[at + 1] != w[at + 2]]
    if rng.random() < 0.1 and calls:                    # a stop that a route visits twice, with one of its positions unsaid
        k = rng.choice(calls)
        w[k + 1], w[k + 2] = rng.choice(((w[k + 1], w[k + 1]), (w[k + 2], w[k + 2])))
        return w
    if rng.random() < 0.1 and w[ROUTE_TRIPS + 1] - w[ROUTE_TRIPS] > 1:        # trips that change places: within a route they may be out of order
        k = rng.randrange(w[ROUTE_TRIPS], w[ROUTE_TRIPS + 1] - 1)
        w[k], w[k + 1] = w[k + 1], w[k]
        if rng.random() < 0.8:                          # and say so in their rows
            one, two = (w[STANDING] + 2 * w[at] for at in (k, k + 1))
            w[one:one + 2], w[two:two + 2] = w[two:two + 2], w[one:one + 2]
        return w
    if rng.random() < 0.08 and w[STANDING + 1] - w[STANDING] > 2:     # a row of another trip, or another route or place beside a right one
        one, two = (rng.randrange(w[STANDING], w[STANDING + 1], 2) for _ in range(2))
        low, high = rng.choice(((0, 1), (1, 2), (0, 2)))
        w[one + low:one + high] = w[two + low:two + high]
        return w
    for _ in range(rng.choice((1, 1, 1, 2, 3))):
        all_of = lambda k: (w[k], w[k + 1])
        low, high = rng.choice(((HEADER, len(w)), (HEADER, len(w)), (HEADER, len(w)), (0, HEADER), all_of(TIMES), all_of(TIMES), all_of(TRANSFERS),
                                all_of(WALKS)))
        k = rng.randrange(low, high) if 0 <= low < high <= len(w) else SECTIONS
        w[k] = rng.choice((w[k] + 1, w[k] - 1, rng.randrange(12), w[rng.randrange(len(w))], 0, MAX, 1_000_001, 86_401, 0x7FC00000, 0x47C35001,
                           rng.randrange(2 ** 32))) % 2 ** 32
    return w
