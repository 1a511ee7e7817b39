#!/usr/bin/env python3
# docs/TABLES.md held to the definitions: each section's number, name, length and row, each limit, each rule with its number, and N's words. The tools that
# write tables and look for faults are held to the same names and numbers; that code and proofs call a section by its name is held by tests/sections.py.
import glob, os, re, sys

sys.dont_write_bytecode = True  # no folder of compiled scripts in the tree
from reading import HERE, text_of, there

sys.path.insert(0, os.path.join(HERE, "tools"))
import fault, timetable

PAGE, REPOSITORY = "docs/TABLES.md", "crates/repository/specs"
SECTIONS, LIMITS, LAID, LISTED, CHECKED = f"{REPOSITORY}/Sections.antt", "crates/model/specs/Limits.antt", f"{REPOSITORY}/Laid.antt", f"{REPOSITORY}/Listed.antt", f"{REPOSITORY}/Checked.antt"
wrong = 0


def complain(what, where=PAGE):
    global wrong
    wrong += 1
    print(f"{where}: {what}")


def numbers(path):
    """The numbers that a file of definitions names."""
    return {name: int(value.replace("_", "")) for name, value in re.findall(r"^abbrev pub ([A-Z][A-Z0-9_]*) : ℕ\n\1 = ([0-9_]+)$", text_of(path), re.M)} if there(path) else {}


def rows(title):
    """The rows of the table under a heading."""
    found = re.search(rf"^## {re.escape(title)}\n(.*?)(?=^## |\Z)", text_of(PAGE), re.M | re.S)
    lines = [[c.strip() for c in l.strip()[1:-1].split("|")] for l in (found.group(1) if found else "").split("\n") if l.startswith("|")]
    if len(lines) < 3:
        complain(f"no table under `{title}`")
    return lines[2:]


def bare(cell):
    return cell.strip("`")


def formula(path, name):
    """The text of a definition, without its head."""
    found = re.search(rf"^{name} [^\n=]*=(.*?)(?=\n\n|\Z)", text_of(path), re.M | re.S)
    return " ".join(found.group(1).split()) if found else ""


# ==== the sections
named = numbers(SECTIONS)
row_of = lambda name: name.removesuffix("_WORDS") if name.removesuffix("_WORDS") in named else name.removesuffix("_WORDS") + "S"
wide = {row_of(name): value for name, value in named.items() if name.endswith("_WORDS")}
count, header = named.get("SECTIONS", 0), named.get("HEADER", 0)
sections = {value: name for name, value in named.items() if name not in ("SECTIONS", "HEADER") and not name.endswith("_WORDS")}
if sorted(sections) != list(range(count)) or not count:
    complain(f"it names no {count} sections, each once", SECTIONS)
if header != count + 1:
    complain(f"a header of {header} words does not say where {count} sections begin and where they end", SECTIONS)
laid = text_of(LAID)
length = {"STOP_LIST": "S", "ROUTE_STOP_STARTS": "R + 1", "TIME_STARTS": "T + 1", "AREA_STARTS": "A + 1"}  # the counts are defined by these
for name, many in re.findall(r"size w ([A-Z_]+) ≡ (stops w \+ 1|stops w|trips w|trips w \* [A-Z_]+_WORDS|size w [A-Z_]+)$", laid, re.M):
    if many == f"trips w * {name}_WORDS":
        length[name] = f"{wide.get(name)} * T"
        continue
    length[name] = {"stops w": "S", "stops w + 1": "S + 1", "trips w": "T"}.get(many) or length.get(many.removeprefix("size w "), "?")
starts = {k: (of, behind) for k, of, behind in re.findall(r"Starts w ([A-Z_]+) \((\w+)s w\) \((?:size|rows) w ([A-Z_]+)[^)]*\)", laid)}
own = rows("The sections")
for k, name, words, says in own:
    name = bare(name)
    if sections.get(int(k)) != name:
        complain(f"section {k} is {sections.get(int(k))}, not {name}")
    want = length.get(name) or f"rows of {wide.get(name, 1)}"
    if words != want:
        complain(f"{name} has `{want}` words, not `{words}`")
    if name in starts and says != f"starts of `{starts[name][1]}`, by {starts[name][0]}":
        complain(f"{name} has the starts of {starts[name][1]}, by {starts[name][0]}: {says}")
    fields = len(says.split(";")[0].split(", "))
    if wide.get(name, fields) != fields:
        complain(f"a row of {name} has {wide[name]} words, and {fields} are named")
if [int(r[0]) for r in own] != list(range(count)):
    complain(f"it does not list {count} sections in their order")
for words in (f"a header of {header} words; then come {count} sections", f"that is behind the header: {header}.", f"word {header - 1}, the last,"):
    if words not in " ".join(text_of(PAGE).split()):
        complain(f"it does not say: {words}")

# ==== the same names in the tools (in code: tests/sections.py)
if [n.replace("_", " ").lower() for k, n in sorted(sections.items())] != fault.NAMES:
    complain(f"its names of the sections are not those of {SECTIONS}", "tools/fault.py")
if {k: len(c) for k, c in fault.COLUMNS.items()} != {k: wide[n] for k, n in sections.items() if wide.get(n, 1) > 1}:
    complain(f"its rows are not those of {SECTIONS}", "tools/fault.py")

# ==== the limits
most = numbers(LIMITS)
shown = {bare(name): many.replace(",", "") for what, many, name in rows("The limits")}
for name in sorted(set(most) | set(shown)):
    if str(most.get(name)) != shown.get(name):
        complain(f"{name} is {most.get(name)} in {LIMITS}, and {shown.get(name)} here")
if not most:
    complain("it names no limit", LIMITS)
for name, own in (("STOPS", "STOPS"), ("ROUTES", "ROUTES"), ("POSITIONS", "POSITIONS"), ("TRIPS", "TRIPS"), ("TIMES", "STOP_TIMES"), ("TRANSFERS", "TRANSFERS"), ("WALKS", "WALKS"), ("AREAS", "AREAS"), ("ENTRIES", "AREA_ENTRIES")):
    if getattr(timetable, name) != most.get("MOST_" + own):
        complain(f"{name} is {getattr(timetable, name)}, and MOST_{own} of {LIMITS} {most.get('MOST_' + own)}", "tools/timetable.py")
for name, own in (("LAST", "LAST_MOMENT"), ("LONGEST", "LONGEST_SPAN")):
    if getattr(timetable, name) != most.get(own):
        complain(f"{name} is {getattr(timetable, name)}, and {own} of {LIMITS} {most.get(own)}", "tools/timetable.py")

# ==== the rules: the parts of each number's test, in their order, and document 01's words as the definitions quote them
def parts(path, name):
    """The tests that a test is made of."""
    return [re.split(r"[ (]", p.strip())[0] for p in formula(path, name).split("&&")]


order = re.findall(r"\((\w+) ", formula(CHECKED, "check_of").replace("cond", "").replace("(net_of w)", "w").replace("( ", "("))
if len(order) != 5:
    complain(f"the check asks {order}, and five numbers are given back", CHECKED)
want = [(1, p) for p in parts(LAID, order[0])]
want += [(2, p) for q in parts(LISTED, order[1]) for p in (parts(LISTED, q) if q == "framed" else [q])]
want += [(3 + k, name) for k, name in enumerate(order[2:])]
rules = rows("The rules, by the number that is given back")
if [(int(k), bare(name)) for k, rule, name in rules] != want:
    complain(f"its rules are not the tests of the check: {[w for w in want if w not in [(int(k), bare(n)) for k, r, n in rules]] or 'the order'}")
quoted = " ".join(text_of(p).replace("\n-- ", " ") for p in (LAID, LISTED, CHECKED))
for k, rule, name in rules:
    for words in re.findall(r'"([^"]*)"', rule):
        if words not in quoted:
            complain(f"number {k}: the definitions do not quote: {words}")

# ==== N, word by word
words, at = [], 0
listed = rows("Network N, word by word")
if [bare(r[1]) for r in listed] != ["header"] + [n for k, n in sorted(sections.items())]:
    complain("N's sections are not those above")
for place, name, has, says in listed:
    name, own = bare(name), [int(w) for w in has.replace(",", " ").split()]
    span = "" if not own else str(at) if len(own) == 1 else f"{at} to {at + len(own) - 1}"
    if place != span:
        complain(f"the words of {name} are {span or 'none'}, not {place or 'none'}")
    if wide.get(name) and any(len(r.split()) != wide[name] for r in has.split(",") if own and wide[name] < len(own)):
        complain(f"a row of {name} has {wide[name]} words: {has}")
    words, at = words + own, at + len(own)
if words[: count + 1] != [header + sum(len([w for w in r[2].replace(",", " ").split()]) for r in listed[1 : k + 1]) for k in range(count + 1)]:
    complain("N's header does not say where its sections begin")
told = re.search(r"^(\d+) words; the test holds", text_of(PAGE), re.M)
if not told or int(told.group(1)) != len(words):
    complain(f"N has {len(words)} words")
network = "crates/network/src/words.rt"
if words != [int(w) for w in re.findall(r"\d+", text_of(network).split("= [")[1])]:
    complain("its words of N are not those of the page", network)
if words != timetable.read(os.path.join(HERE, "examples/N.txt"), timetable.Timetable()).words():
    complain("N's words are not what tools/timetable.py makes of examples/N.txt")
proved = [os.path.relpath(p, HERE) for p in glob.glob(f"{HERE}/crates/*/proofs/Examples.antt") if re.search(r"^abbrev pub N : List ℕ$", open(p, encoding="utf-8").read(), re.M)]
for path in proved:
    if words != [int(w) for w in re.findall(r"\d+", formula(path, "N") or text_of(path).split("\nN =")[1].split("\n\n")[0])]:
        complain("its words of N are not those of the page", path)
if not proved:
    complain("no file of proofs has the words of N", "crates")
if fault.faults(words)[0]:
    complain("tools/fault.py finds a fault in N")

print(f"{count} sections, {len(most)} limits, {len(rules)} rules, {len(words)} words of N, {wrong} wrong")
sys.exit(wrong > 0)
