#!/usr/bin/env python3
"""The tools held to what they promise: every refusal met once, statuses, no traceback whatever they are given; fault.py against a second writing of
the check, the list that `checktables` is run on and the networks of oracle/cases.txt; a drawing of each kept journey tried.

    tests/tools.py [SEED]
"""
import ast
import os
import random
import re
import subprocess
import sys
import tempfile
import xml.etree.ElementTree as xml

sys.dont_write_bytecode = True
HERE = os.path.dirname(os.path.dirname(os.path.abspath(__file__)))
os.chdir(HERE)
sys.path.insert(0, os.path.join(HERE, "tools"))
import drawing
import fault
import manners
import timetable
from refusals import ASKED, JOURNEYS, LIMITS, N1, N1_LATER, TABLES, TIMETABLES
from damaging import damaged
from second_check import number

TOOLS = {"timetable": timetable, "drawing": drawing, "fault": fault}
room = tempfile.TemporaryDirectory()
runs = 0


def expect(true, *said):
    if not true:
        print("tools:", *said)
        sys.exit(1)


def file(name, text):
    path = os.path.join(room.name, name)
    if os.path.exists(path):
        os.remove(path)         # a file system may take its time over a file that is cut and written anew
    with open(path, "wb") as out:
        out.write(text if isinstance(text, bytes) else text.encode())
    return path


def ran(name, words, given=""):
    """A tool run within this process: status, output, error stream. `given` is its standard input."""
    global runs
    runs += 1
    if name == "drawing":
        with open(file("given", given), "rb") as stream:
            os.dup2(stream.fileno(), 0)
    status, out, err = manners.outcome(TOOLS[name].__doc__, TOOLS[name].tool, words)
    expect(status in (0, 1, 2) and (status < 2 or out == ""), name, words, "gave", status, out[:80])
    expect("Traceback" not in out + err, name, words, err)
    return status, out, err


def command(line, want, said="", given=b""):
    """A command run by the shell: its status, and what stands on the error stream."""
    global runs
    runs += 1
    got = subprocess.run(["sh", "-c", line], input=given, stdout=subprocess.PIPE, stderr=subprocess.PIPE)
    err = got.stderr.decode(errors="replace")
    expect(got.returncode == want and "Traceback" not in err and "Exception" not in err and said in err and (said or not err), line, "gave",
           got.returncode, err)
    return got.stdout.decode()


def raises():
    """Where the tools refuse: file and line of each `raise`."""
    for name in ("manners", *TOOLS):
        path = sys.modules[name].__file__
        with open(path) as text:
            for node in ast.walk(ast.parse(text.read())):
                if isinstance(node, ast.Raise):
                    yield path, node.lineno


def refusals():
    """Each refusal with its message; no `raise` of the tools is left out."""
    met = set()

    def trace(frame, event, _):
        if not frame.f_code.co_filename.startswith(os.path.join(HERE, "tools")):
            return None
        if event == "line":
            met.add((frame.f_code.co_filename, frame.f_lineno))
        return trace

    sys.settrace(trace)
    for text, said in TIMETABLES:
        path = file("timetable", text)
        got = ran("timetable", [path])
        expect(got == (2, "", f"{path}{said}\n"), repr(text[:60]), "gave", got)
        expect(ran("drawing", [path], N1)[0] == 2 or "--midnight" in said, repr(text[:60]), "was drawn")
    for text, said in TABLES:
        path = file("tables", text)
        got = ran("fault", [path])
        expect(got == (2, "", f"{path}{said}\n"), repr(text[:60]), "gave", got)
    for text, status, said in JOURNEYS:
        got = ran("drawing", ["examples/N.txt"], text)
        expect(got == (status, "", said + "\n"), text, "gave", got)
    got = ran("drawing", ["--midnight", "86400", "examples/N.txt"], N1)
    expect(got[0] == 2 and "line 1: 0:01:40 is less than --midnight 86400: leave --midnight out" in got[2], got)
    got = ran("timetable", ["--midnight=86400", file("timetable", "stops 2\nroute 0 1\ntrip 0 913601\n")])
    expect("line 3: 913601 is out of range: a moment is 0 to 913,600 seconds with --midnight 86400" in got[2], got)
    for name, words, said in ASKED:
        got = ran(name, words)
        expect(got[0] == 2 and got[2].startswith(said + "\nusage:\n") and f"tools/{name}.py" in got[2], name, words, "gave", got)
    for name in TOOLS:
        for path, said in (("nowhere", "cannot be read: No such file or directory"), (room.name, "is a directory, not a file")):
            expect(ran(name, [path]) == (2, "", f"{path}: {said}\n"), name, path, ran(name, [path]))
        status, out, err = ran(name, [])
        expect(status == 2 and err.startswith("usage:\n") and f"tools/{name}.py" in err, name, "gave", status, out, err)
        for word in ("-h", "--help"):
            status, out, err = ran(name, [word])
            expect(status == 0 and f"tools/{name}.py" in out and err == "", name, word, "gave", status, out, err)
    most, manners.MOST = manners.MOST, 100
    expect(": is longer than 100 bytes" in ran("timetable", ["examples/town.txt"])[2], "a file of any length is read")
    manners.MOST = most
    sys.settrace(None)
    for head, line, count, most, what in LIMITS:
        status, out, err = ran("timetable", [file("timetable", head + line * count)])
        words = [int(x) for x in out.split()[1:]]
        expect(status == 0 and number(words) == 0, count, what, "gave", status, err)
        path = file("timetable", head + line * count + line)
        got = ran("timetable", [path])
        expect(got[0] == 2 and got[2].startswith(f"{path}, line {head.count(chr(10)) + count + 1}: there are more than ")
               and got[2].endswith(f" {what}, and {most:,} is the most\n"), count, what, "gave", got)
    left = sorted(set(raises()) - met)
    expect(not left, "no run meets", left)
    return len(set(raises()))


def commands():
    """The tools as commands: statuses, pipes and streams that are closed or full."""
    command("tools/timetable.py examples/N.txt | tools/fault.py -", 0)
    command("tools/timetable.py examples/town.txt | head -c 1", 0)
    os.symlink(f"{HERE}/tools/fault.py", f"{room.name}/link")
    command(f"'{room.name}/link' examples/N.txt", 2, "examples/N.txt, line 1: after 0 words, # is no number")
    command("tools/timetable.py \"$(printf '\\377')\"", 2, "cannot be read: No such file or directory")
    command("tools/timetable.py ''", 2, "'': cannot be read: No such file or directory")
    command("{ sleep 0.3; tools/timetable.py examples/town.txt; } | :", 0)
    command("{ sleep 0.3; tools/drawing.py examples/N.txt; } | :", 0, given=N1.encode())
    command("{ sleep 0.3; tools/fault.py --help; } | :", 0)
    command("tools/timetable.py examples/N.txt >&-", 2, "the output cannot be written")
    command("tools/timetable.py nowhere 2>&-", 2)
    command("tools/timetable.py - <&-", 2, "standard input: cannot be read")
    command("tools/drawing.py examples/N.txt <&-", 2, "standard input: cannot be read")
    if os.path.exists("/dev/full"):
        command("tools/timetable.py examples/N.txt >/dev/full", 2, "the output cannot be written")
    if os.getuid():
        path = file("closed", "stops 1\n")
        os.chmod(path, 0)
        command(f"tools/timetable.py {path}", 2, "cannot be read: Permission denied")
    for name in TOOLS:
        expect(command(f"tools/{name}.py", 2, "usage:") == "", name, "writes its usage on the output")
        expect("usage" not in command(f"tools/{name}.py --help", 0), name)
        expect(command(f"tools/{name}.py nowhere", 2, "nowhere: cannot be read: No such file or directory\n") == "", name)
    path = file("wrong", "21 26\n")
    expect(command(f"tools/fault.py {path}", 1).startswith("1: a count over its limit"), "fault.py")
    command("PYTHONIOENCODING=ascii LC_ALL=C tools/drawing.py --asked 9:00:00 examples/N.txt", 0, given=N1.encode())


# ---- what is accepted

def nets(path):
    with open(path) as text:
        return [[int(x) for x in line.split()[1:]] for line in text if line.startswith("net")]


def timetables():
    """The timetables among the examples; beside them stands a feed."""
    return sorted(name for name in os.listdir("examples") if name.endswith(".txt"))


def examples():
    """The examples give the words that are kept elsewhere, and --midnight adds to the moments only."""
    listed = nets("crates/checktables/stdin")
    for name, words in (("N", listed[0]), ("M", listed[1])):
        expect(ran("timetable", [f"examples/{name}.txt"])[1] == " ".join(["net", *map(str, words)]) + "\n", name, "gives other words")
    for name in timetables():
        plain, later = ([int(x) for x in ran("timetable", [*more, f"examples/{name}"])[1].split()[1:]] for more in ([], ["--midnight", "86400"]))
        expect(number(plain) == number(later) == 0, name, "is refused")
        times = range(plain[16], plain[17])
        expect(all(b - a == 86400 * (k in times) for k, (a, b) in enumerate(zip(plain, later))), name, "--midnight changes more than moments")
    night = ran("timetable", ["--midnight", "86400", file("timetable", "stops 2\nroute 0 1\ntrip 0:00:00 0:05:00\n")])
    expect(night[0] == 0 and number([int(x) for x in night[1].split()[1:]]) == 0, "midnight is refused", night)
    same = b"\xef\xbb\xbf" + open("examples/N.txt", "rb").read().replace(b"\n", b"\r\n")
    expect(ran("timetable", [file("timetable", same)]) == ran("timetable", ["examples/N.txt"]), "another editor's line ends give other words")


def spoilt(rng, text):
    """A timetable with some of its bytes or words changed."""
    for _ in range(rng.choice((1, 1, 2, 3))):
        k = rng.randrange(len(text) + 1)
        kind = rng.randrange(6)
        if kind == 0:
            text = text[:k] + bytes([rng.randrange(256)]) + text[k + rng.randrange(2):]
        elif kind == 1:
            text = text[:k] + text[k + rng.randrange(12):]
        elif kind == 2:
            lines = text.split(b"\n")
            lines.insert(rng.randrange(len(lines)), lines.pop(rng.randrange(len(lines))))
            text = b"\n".join(lines)
        elif kind == 3:
            text = text[:k] + text[rng.randrange(len(text) + 1):][:20] + text[k:]
        else:
            words = re.split(rb"(\s+)", text)
            words[rng.randrange(len(words))] = rng.choice((
                b"-1", b"0", b"4294967296", b"1000001", b"1/2/3", b"7:61:00", b"nan", b"1e9", b"99999999999999999999", b"#", b"0:", b"5m", b"-5m",
                "\u0663".encode(), b"trip", b"route", b"stops", b"area", b"station", b"walk", b"\r", b"\x0c", words[rng.randrange(len(words))]))
            text = b"".join(words)
    return text


def spoil(rng, count):
    """Spoilt timetables are refused with a line, or the tables are accepted by both checks."""
    texts, accepted = [open(os.path.join("examples", name), "rb").read() for name in timetables()], 0
    for _ in range(count):
        text = spoilt(rng, rng.choice(texts))
        path = file("timetable", text)
        status, out, err = ran("timetable", [path])
        accepted += status == 0
        if status == 0:
            words = [int(x) for x in out.split()[1:]]
            expect(number(words) == fault.faults(words)[0] == 0 and err == "", repr(text), "gives refused tables")
        else:
            expect(status == 2 and re.fullmatch(re.escape(path) + r"(, line [0-9]+)?: .+\n", err), repr(text), "gave", status, err)
    for _ in range(count // 400):
        text = spoilt(rng, rng.choice(texts))
        got = subprocess.run([sys.executable, "tools/timetable.py", "-"], input=text, stdout=subprocess.PIPE, stderr=subprocess.PIPE)
        expect(got.returncode in (0, 2) and b"Traceback" not in got.stderr and (got.returncode == 0) == (got.stderr == b""), repr(text), got)
        text = spoilt(rng, N1.encode())
        status, out, err = ran("drawing", ["examples/N.txt"], text)
        expect((status == 0) == (err == "") and (status > 0) == (out == ""), repr(text), "gave", status, err)
    return accepted


def same_number(w, want):
    k, text = fault.told(w)
    expect(k == want, "fault.py says", k, "and not", want, "of", *w)
    lines = text.split("\n")
    expect(lines[0].startswith(f"{k}: ") and (k == 0) == (len(lines) == 2), text)
    place = re.search(r"word ([0-9]+)( of the tables)?$", lines[1]) if k else None
    expect(not place or lines[2] == f"value: {w[int(place[1])]}", "the value is not the word's", text)


def standings():
    """Where the fault of a trip's standing is said to be, and of tables of the layout before."""
    n = nets("crates/checktables/stdin")[0]
    for at, value, row, what in ((0, 2, "row 0, route", "trip 0 names it as its route, and there are 2 routes"),
                                 (1, 1, "row 0, place", "trip 0 names it as its place in route 0, where trip 1 stands"),
                                 (3, 2, "row 1, place", "trip 1 names it as its place in route 0, which has the places 0 to 1"),
                                 (7, 4, "row 3, place", "trip 3 names it as its place in route 1, which has the places 2 to 3")):
        w = list(n)
        w[w[19] + at] = value
        k, text = fault.told(w)
        expect(k == 2 and f"where: section 19, standing, {row}; word {120 + at} of the tables\nvalue: {value}\nwhat: {what}\n" in text, text)
    k, text = fault.told([20] + n[1:])
    expect(k == 1 and "where: the header, word 0\nvalue: 20\n" in text and "tables of another layout" in text, text)


def check(rng, count):
    """fault.py and the second writing against the list, the kept networks, and damaged ones."""
    with open("crates/checktables/stdout") as text:
        listed = [int(x) for x in text.read().split()]
    tables = nets("crates/checktables/stdin")
    expect(len(tables) == len(listed), "the list of `checktables` has", len(tables), "tables and", len(listed), "numbers")
    for w, want in zip(tables, listed):
        expect(number(w) == want, "the second writing says", number(w), "of", *w)
        same_number(w, want)
    kept, by = nets("oracle/cases.txt"), [0] * 6
    for w in kept:
        same_number(w, 0)
    for _ in range(count):
        w = damaged(rng, rng.choice(kept))
        by[number(w)] += 1
        same_number(w, number(w))
    return len(tables) + len(kept), by


# ---- drawings

def drawn(svg, what):
    root = xml.fromstring(svg)
    space = "{http://www.w3.org/2000/svg}"
    expect(root.get("role") == "img" and root.get("aria-labelledby") == "journey-title journey-desc", what)
    for part, name in zip(root, ("title", "desc")):
        expect(part.tag == space + name and part.get("id") == f"journey-{name}" and part.text, what)
    numbers = [float(x) for x in re.findall(r'(?:cx|cy|x|y|x1|y1|width|height)="(-?[0-9.]+)"', svg)]
    expect(all(abs(x) < 1e7 for x in numbers) and "nan" not in svg, what)
    return {text.text for text in root.iter(space + "text")}


def kept_journeys():
    """The kept networks as timetables, and the journeys found on them as `kiosk` prints them."""
    with open("oracle/cases.txt") as cases, open("oracle/answers.txt") as answers:
        for line in cases:
            if line.startswith("net"):
                w = [int(x) for x in line.split()[1:]]
            if line.startswith("q "):
                answer = next(answers)
                if answer.startswith("0 "):
                    yield w, line.split(), [leg.split() for leg in answer.split("|")[1:]]


def as_timetable(w):
    """The routes of a network as a timetable, which numbers trips in the order of its lines."""
    part = [w[w[k]:w[k + 1]] for k in range(20)]
    lines, numbers = [f"stops {len(part[0])}"], {}
    for r in range(len(part[11]) - 1):
        lines.append("route " + " ".join(map(str, part[12][part[11][r]:part[11][r + 1]])))
        for v in part[14][part[13][r]:part[13][r + 1]]:
            numbers[v] = len(numbers)
            rows = part[16][part[15][v] * 2:part[15][v + 1] * 2]
            lines.append("trip " + " ".join(f"{a}/{d}" for a, d in zip(rows[::2], rows[1::2])))
    return lines, numbers


def drawings(step):
    """A sample of the kept journeys drawn; each of their moments and stops is named."""
    clock, count = timetable.clock, 0
    for k, (w, query, legs) in enumerate(kept_journeys()):
        if k % step:
            continue
        lines, numbers = as_timetable(w)
        table, said = timetable.Timetable(), []
        for line in lines:
            table.add(line.split())
        for kind, a, b, *rest in legs:
            trip = f" trip {numbers[int(rest.pop(0))]}" if kind == "ride" else ""
            said.append(f"{kind}{trip} from stop {a} at {clock(int(rest[0]))} to stop {b} at {clock(int(rest[1]))}")
        labels = drawn(drawing.Drawing(drawing.read_journey(table, 0, said), int(query[6])).svg(), said)
        expect(all(f"stop {s}" in labels for leg in legs for s in leg[1:3]), "a stop is not named", said)
        first, last = said[0].split(" to ")[0].split()[-1], said[-1].split()[-1]
        expect({f"the beginning, {first}", f"arrive {last}"} <= labels, "its ends are not named", said)
        count += 1
    plain = ran("drawing", ["--asked", "50", "examples/N.txt"], N1)
    expect(plain[0] == 0 and plain[1] == open("docs/N1.svg").read(), "docs/N1.svg is not what drawing.py draws")
    expect(ran("drawing", ["--asked=86450", "--midnight=86400", "examples/N.txt"], N1_LATER) == plain, "--midnight gives another drawing")
    stops = {label for label in drawn(plain[1], "N1") if label.startswith("stop ")}
    town = drawn(ran("drawing", ["examples/town.txt"], "ride trip 0 from stop 3 at 7:07:00 to stop 6 at 7:20:00")[1], "town")
    expect(stops == {f"stop {s}" for s in range(5)} and {x for x in town if x.startswith("stop ")} == {"stop 3", "stop 4", "stop 6"},
           "other stops than the journey's are drawn", stops, town)
    return count


def main():
    rng = random.Random(int(sys.argv[1]) if len(sys.argv) > 1 else 1)
    met = refusals()
    commands()
    examples()
    accepted, spoils = spoil(rng, 3000), 3000
    standings()
    tables, by = check(rng, 3000)
    count = drawings(6)
    print(f"tools: {met} refusals met, {runs} runs without a traceback; of {spoils} spoilt timetables {accepted} accepted, by both checks too; "
          f"fault.py agrees on {tables} kept and {sum(by)} damaged tables (by number 0 to 5: {' '.join(map(str, by))}); {count} kept journeys drawn")


main()
