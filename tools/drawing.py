#!/usr/bin/env python3
"""Draws a journey across its timetable as SVG: its stops down, time across, each trip a line, the journey bold, its beginning marked.

    ./kiosk .. | tools/drawing.py [--asked MOMENT] [--midnight SECONDS] TIMETABLE > journey.svg

The journey is read from what `kiosk` prints, the trips from the timetable (tools/timetable.py). --asked also marks the moment that `kiosk` was
asked. --midnight SECONDS takes so many seconds off the moments that `kiosk` printed and off the moment asked: for tables made with --midnight
where `kiosk` was asked without midnight:SECONDS.

Status 0: drawn; 1: there is no journey to draw, `kiosk` refused; 2: something is wrong with what was given. Nothing is drawn on 1 and 2.
"""
import re
import sys
from collections import namedtuple

sys.dont_write_bytecode = True
import manners
import timetable
from manners import count
from timetable import Wrong, clock

AT = r"stop ([0-9]+) at (\S+(?: the day before| [0-9]+ days before)?)"
LEG = re.compile(f"(?:ride trip ([0-9]+)|transfer|walk) from {AT} to {AT}")
ENDS = re.compile(r"Leave stop ([0-9]+) at (\S+), arrive at stop ([0-9]+) at (\S+?):? ")
REFUSAL = re.compile(r"[0-9]+: .*")

Leg = namedtuple("Leg", "kind trip start departure end arrival")
Call = namedtuple("Call", "stop arrival departure")

STEPS = [1, 2, 5, 10, 15, 30, 60, 120, 300, 600, 900, 1800, 3600, 7200, 10800, 21600, 43200, 86400, 172800]
LEFT, WIDE, TOP, ROW = 84, 760, 78, 58      # where the grid begins, how wide it is, and how far a row is from the next
EARLY, LATE = 84, 104                       # room in the grid before the first moment and behind the last
JOURNEY, OTHERS, ASKED, TEXT, PALE = "#b8321a", "#7f9bb3", "#1f5fa8", "#222", "#6b6b6b"
FOOT = ' stroke-dasharray="2 8"'
HALO = ' paint-order="stroke" stroke="white" stroke-width="3" stroke-linejoin="round"'


# What was given

class Journey:
    """The legs that `kiosk` printed, on the clock of the timetable."""

    def __init__(self, table, midnight):
        self.table, self.midnight, self.legs, self.ends = table, midnight, [], None

    def moment(self, text):
        if text.endswith(" before"):
            raise Wrong(f"{text} is before midnight, and a timetable has no such moment")
        value = timetable.moment(text)
        if value < self.midnight:
            raise Wrong(f"{text} is less than --midnight {self.midnight}: leave --midnight out where `kiosk` was asked with midnight:SECONDS")
        return value - self.midnight

    def stop(self, text):
        return self.table.stop(text)

    def add(self, line):
        """Takes one more line of the text; what is no leg and no heading is passed over."""
        heading = ENDS.match(line)
        if heading:
            self.ends = self.stop(heading[1]), self.moment(heading[2]), self.stop(heading[3]), self.moment(heading[4])
        elif line.split()[:1] in (["ride"], ["transfer"], ["walk"]):
            match = LEG.fullmatch(line)
            if not match:
                raise Wrong("this is no leg as `kiosk` prints it")
            trip = None if match[1] is None else manners.number(match[1])
            self.put(Leg(line.split()[0], trip, self.stop(match[2]), self.moment(match[3]), self.stop(match[4]), self.moment(match[5])))

    def put(self, leg):
        if leg.arrival < leg.departure:
            raise Wrong(f"this leg arrives at {clock(leg.arrival)}, before it leaves at {clock(leg.departure)}")
        if self.legs and (leg.start != self.legs[-1].end or leg.departure < self.legs[-1].arrival):
            raise Wrong(f"this leg leaves stop {leg.start} at {clock(leg.departure)}, and the leg before it arrives at stop {self.legs[-1].end} at "
                        f"{clock(self.legs[-1].arrival)}")
        if leg.trip is not None:
            self.calls(leg)
        self.legs.append(leg)

    def calls(self, leg):
        """The calls of a ride, from where it is boarded to where it is left."""
        if leg.trip >= len(self.table.times):
            raise Wrong(f"the timetable has no trip {leg.trip}: it has {count(len(self.table.times), 'trip')}")
        route = next(stops for stops, trips in self.table.routes if leg.trip in trips)
        rows = [Call(stop, *times) for stop, times in zip(route, self.table.times[leg.trip])]
        for p, board in enumerate(rows):
            for q in range(p, len(rows)):
                if (board.stop, board.departure, rows[q].stop, rows[q].arrival) == (leg.start, leg.departure, leg.end, leg.arrival):
                    return rows[p:q + 1]
        raise Wrong(f"in the timetable trip {leg.trip} does not go from stop {leg.start} at {clock(leg.departure)} to stop {leg.end} at "
                    f"{clock(leg.arrival)}; were the tables made with --midnight?")


def read_journey(table, midnight, lines):
    """The journey of what `kiosk` printed."""
    journey, said = Journey(table, midnight), []
    for line, text in enumerate(lines, 1):
        text = text.strip()
        said += [text] if text else []
        try:
            journey.add(text)
        except Wrong as why:
            raise manners.Refused("-", line, why)
    refusal = next(filter(REFUSAL.fullmatch, said), None)
    if not journey.legs and refusal:
        raise manners.Refused("-", None, f"there is no journey to draw: `kiosk` said {manners.shown(refusal, 200)}", 1)
    if not said:
        raise manners.Refused("-", None, "there is no journey to draw: it is empty, as where `kiosk` says on the error stream why it found none", 1)
    if not journey.legs:
        raise manners.Refused("-", None, "there is no leg of a journey in it: give it what `kiosk` prints")
    first, last = journey.legs[0], journey.legs[-1]
    if journey.ends and journey.ends != (first.start, first.departure, last.end, last.arrival):
        raise manners.Refused("-", None, "its legs do not go from where its first line says to where it says: some are missing")
    return journey


# The drawing

class Drawing:
    def __init__(self, journey, asked):
        self.journey, self.legs, self.table, self.asked, self.out = journey, journey.legs, journey.table, asked, []
        self.begin, self.end = self.legs[0].departure, self.legs[-1].arrival
        self.passed = [journey.calls(leg)[1:-1] if leg.trip is not None else [] for leg in self.legs]
        # the line of each leg: moments and stops
        self.ways = [[(leg.departure, leg.start), *((m, c.stop) for c in calls for m in (c.arrival, c.departure)), (leg.arrival, leg.end)]
                     for leg, calls in zip(self.legs, self.passed)]
        self.row = {s: k for k, s in enumerate(dict.fromkeys(s for way in self.ways for _, s in way))}
        self.bottom = TOP + (len(self.row) - 1) * ROW + 22
        # a moment asked far from the journey would leave the journey no room: then only its side is shown
        self.near = asked is not None and max(self.begin - asked, asked - self.end) <= 1.5 * max(60, self.end - self.begin)
        moments = [self.begin, self.end] + [asked] * self.near
        self.first, self.last = min(moments), max(moments)
        self.scale = (WIDE - EARLY - LATE) / max(1, self.last - self.first)
        self.earliest, self.latest = self.first - EARLY / self.scale, self.last + LATE / self.scale

    def x(self, moment):
        return round(LEFT + EARLY + (moment - self.first) * self.scale, 1)

    def y(self, stop):
        return TOP + self.row[stop] * ROW

    def put(self, *parts):
        self.out += parts

    def line(self, points, colour, width, more=""):
        self.put(f'<polyline points="{" ".join(f"{a},{b}" for a, b in points)}" fill="none" stroke="{colour}" stroke-width="{width}" '
                 f'stroke-linejoin="round" stroke-linecap="round"{more}/>')

    def text(self, x, y, what, colour=TEXT, anchor="start", more=""):
        self.put(f'<text x="{round(x, 1)}" y="{y}" fill="{colour}" text-anchor="{anchor}"{more}>{what}</text>')

    def dot(self, moment, stop, radius, colour, fill=None):
        ring = f' stroke="{colour}" stroke-width="2.5"' if fill else ""
        self.put(f'<circle cx="{self.x(moment)}" cy="{self.y(stop)}" r="{radius}" fill="{fill or colour}"{ring}/>')

    def told(self):
        """The journey in words, for who does not see it."""
        for leg in self.legs:
            how = f"ride trip {leg.trip}" if leg.trip is not None else leg.kind
            yield f"{how} from stop {leg.start} at {clock(leg.departure)} to stop {leg.end} at {clock(leg.arrival)}"

    def head(self):
        rides = count(sum(leg.trip is not None for leg in self.legs), "ride")
        start, end = self.legs[0].start, self.legs[-1].end
        asked = f" Asked {self.question()}." if self.asked is not None else ""
        wide, high = LEFT + WIDE + 26, self.bottom + 74
        self.put(f'<svg xmlns="http://www.w3.org/2000/svg" width="{wide}" height="{high}" viewBox="0 0 {wide} {high}" role="img" '
                 'aria-labelledby="journey-title journey-desc" font-family="system-ui, Helvetica, Arial, sans-serif" font-size="13">',
                 f'<title id="journey-title">A journey from stop {start} to stop {end}</title>',
                 f'<desc id="journey-desc">Leave stop {start} at {clock(self.begin)}, arrive at stop {end} at {clock(self.end)}: {rides}.{asked} '
                 f'The legs: {"; ".join(self.told())}.</desc>',
                 '<rect width="100%" height="100%" fill="white"/>',
                 f'<clipPath id="journey-grid"><rect x="{LEFT}" y="{TOP - 22}" width="{WIDE}" height="{self.bottom - TOP + 22}"/></clipPath>')
        self.text(LEFT, 26, f"Stop {start} to stop {end}: leave {clock(self.begin)}, arrive {clock(self.end)}, {rides}",
                  more=' font-size="16" font-weight="600"')

    def question(self):
        if self.asked <= self.begin:
            return f"to leave at {clock(self.asked)} or later"
        return f"to arrive by {clock(self.asked)}" if self.asked >= self.end else f"for {clock(self.asked)}"

    def grid(self):
        step = next((s for s in STEPS if s * self.scale >= 72), STEPS[-1])
        tick = max(0, int(self.earliest) // step * step)
        while tick <= self.latest:
            if tick >= self.earliest:
                self.line([(self.x(tick), TOP - 22), (self.x(tick), self.bottom)], "#e6e6e6", 1)
                self.text(self.x(tick), self.bottom + 18, clock(tick) if step % 60 else clock(tick)[:-3], PALE, "middle")
            tick += step
        ends = {s for leg in self.legs for s in (leg.start, leg.end)}
        for s in self.row:
            self.line([(LEFT, self.y(s)), (LEFT + WIDE, self.y(s))], "#d4d4d4", 1)
            self.text(LEFT - 12, self.y(s) + 4, f"stop {s}", TEXT if s in ends else PALE, "end", ' font-weight="600"' if s in ends else "")

    def others(self):
        """Every trip that calls at two of these stops while the drawing lasts; named where they are few."""
        shown = []
        for route, trips in self.table.routes:
            here = [p for p, s in enumerate(route) if s in self.row]
            for trip in trips if len(here) > 1 else []:
                calls = [Call(route[p], *self.table.times[trip][p]) for p in here]
                if calls[0].arrival <= self.latest and calls[-1].departure >= self.earliest:
                    shown.append((trip, calls))
        self.put('<g clip-path="url(#journey-grid)">')
        for trip, calls in shown:
            points = [(m, c.stop) for c in calls for m in (c.arrival, c.departure)]
            self.put(f"<g><title>trip {trip}</title>")
            self.line([(self.x(m), self.y(s)) for m, s in points], OTHERS, 1.5)
            for m, s in dict.fromkeys(points):
                self.dot(m, s, 2.2, OTHERS)
            first = next(((m, s) for m, s in points[1:] if m >= self.earliest), points[1])
            if len(shown) < 9 and all(trip != leg.trip for leg in self.legs):
                self.text(self.x(first[0]) + 5, self.y(first[1]) - 6, f"trip {trip}", "#55708a", more=' font-size="11"')
            self.put("</g>")
        self.put("</g>")

    def mark(self):
        """The moment asked, and the waiting from or to it."""
        if self.asked is None:
            return
        later = self.asked > self.begin
        if self.near:
            x, stop = self.x(self.asked), self.legs[-1].end if later else self.legs[0].start
            self.line([(x, TOP - 22), (x, self.bottom)], ASKED, 1.5, ' stroke-dasharray="5 4"')
            self.line([(x, self.y(stop)), (self.x(self.end if later else self.begin), self.y(stop))], ASKED, 2.5, ' stroke-dasharray="0.1 5"')
            self.text(x, TOP - 28, f"asked {self.question()}", ASKED, "end" if later and x > LEFT + 300 else "start")
        else:
            self.text(LEFT + WIDE * later, TOP - 28, f"asked {self.question()} " + "\u2192" if later else f"\u2190 asked {self.question()}", ASKED,
                      "end" if later else "start")

    def way(self):
        """The journey itself: its legs, and the waiting between them."""
        for leg, after in zip(self.legs, self.legs[1:]):
            self.line([(self.x(leg.arrival), self.y(leg.end)), (self.x(after.departure), self.y(after.start))], JOURNEY, 2)
        for leg, way in zip(self.legs, self.ways):
            self.line([(self.x(m), self.y(s)) for m, s in way], JOURNEY, 4, "" if leg.trip is not None else FOOT)
            self.caption(f"trip {leg.trip}" if leg.trip is not None else leg.kind, way)

    def caption(self, what, way):
        """What a leg is, beside the longest part of its line, on the side that the line leaves free."""
        parts = [(self.x(m), self.y(s), self.x(n), self.y(t)) for (m, s), (n, t) in zip(way, way[1:])]
        a, b, c, d = max(parts, key=lambda part: part[2] - part[0] + abs(part[3] - part[1]))
        self.text((a + c) / 2 + 9, (b + d) // 2 + (14 if d < b else -3), what, JOURNEY, more=' font-weight="600"' + HALO)

    def rises(self, two):
        """Whether a part of a line goes up."""
        return self.y(two[1][1]) < self.y(two[0][1])

    def calls(self):
        """A dot at each call, and its time: arrivals on the left, departures on the right, where the line leaves room."""
        for k, (leg, way) in enumerate(zip(self.legs, self.ways)):
            for c in self.passed[k]:
                for m in dict.fromkeys((c.arrival, c.departure)):
                    self.dot(m, c.stop, 4, JOURNEY)
                self.text(self.x(c.departure) + 7, self.y(c.stop) - 7, clock(c.departure), PALE, more=' font-size="11"' + HALO)
            self.dot(leg.departure, leg.start, 5, JOURNEY)
            self.dot(leg.arrival, leg.end, 5, JOURNEY)
            if k and leg.departure > self.legs[k - 1].arrival:
                self.text(self.x(leg.departure) + 7, self.y(leg.start) + (17 if self.rises(way[:2]) else -8), clock(leg.departure), more=HALO)
            if k + 1 < len(self.legs):
                self.text(self.x(leg.arrival) - 7, self.y(leg.end) + (-8 if self.rises(way[-2:]) else 17), clock(leg.arrival), TEXT, "end", HALO)
        self.dot(self.begin, self.legs[0].start, 7.5, JOURNEY, "white")
        bold = ' font-weight="600"' + HALO
        self.text(self.x(self.begin) + 11, self.y(self.legs[0].start) - 9, f"the beginning, {clock(self.begin)}", JOURNEY, more=bold)
        left = self.x(self.end) > LEFT + 140
        self.text(self.x(self.end) + (-9 if left else 9), self.y(self.legs[-1].end) + (-9 if self.rises(self.ways[-1][-2:]) else 18),
                  f"arrive {clock(self.end)}", JOURNEY, "end" if left else "start", bold)

    def legend(self):
        x, y = LEFT, self.bottom + 50
        for what, wide, colour, width, more in (("ride", 70, JOURNEY, 4, ""), ("transfer or walk", 142, JOURNEY, 4, FOOT),
                                                ("waiting", 92, JOURNEY, 2, ""), ("other trips at these stops", 200, OTHERS, 1.5, ""),
                                                *([("moment asked", 130, ASKED, 1.5, ' stroke-dasharray="5 4"')] * self.near)):
            self.line([(x, y - 4), (x + 26, y - 4)], colour, width, more)
            self.text(x + 34, y, what, PALE, more=' font-size="12"')
            x += wide + 14

    def svg(self):
        for part in (self.head, self.grid, self.others, self.mark, self.way, self.calls, self.legend):
            part()
        return "\n".join(self.out + ["</svg>"]) + "\n"


def moment_asked(text):
    try:
        return timetable.moment(text)
    except Wrong as why:
        raise manners.Usage(f"--asked: {why}")


def tool(words):
    given, path = manners.arguments(words, {"--midnight": manners.seconds_of_midnight, "--asked": moment_asked})
    if path == "-":
        raise manners.Usage("the timetable is a file: standard input is what `kiosk` prints")
    midnight, asked = given.get("--midnight", 0), given.get("--asked")
    if asked is not None and asked < midnight:
        raise manners.Usage(f"--asked {clock(asked)} is less than --midnight {midnight}: both are on the clock of the tables")
    journey = read_journey(timetable.read(path, timetable.Timetable(first=0)), midnight, manners.lines("-"))
    return 0, Drawing(journey, None if asked is None else asked - midnight).svg()


if __name__ == "__main__":
    manners.run(__doc__, tool)
