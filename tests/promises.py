#!/usr/bin/env python3
# docs/PROMISES.md and docs/STATEMENTS.md held to the tree and to tests/sentences.txt. Every sentence has its row; every row cites what it must, and what it
# cites is a theorem, a contract or a definition of the file that it names; a row of the three demands has a theorem or a contract, and an edit that
# changes something; each copied statement is the source's own text, and each link leads to one; each hypothesis of a cited theorem has a witness; what
# must be believed is listed whole. With `write` the copies, the links and the counts are made anew, and a name that moved to another file is followed.
import glob, hashlib, os, re, sys

sys.dont_write_bytecode = True  # no folder of compiled scripts in the tree
from believed import counted, kit
from reading import HERE, asked_and_said, crates, edits, source, text_of, there

PAGE, COPIES, LIST = "docs/PROMISES.md", "docs/STATEMENTS.md", "tests/sentences.txt"
# The sum of the sentences that are others' (tests/sentences.txt): to leave one out, one has to change this line as well. `tests/promises.py sum` tells it.
SUM = "e5271aede96de9d9"
# Documents 01 and 02, where they are at hand, and the parts of them of which no sentence may be left out: from .. up to ..
DOCUMENTS = {"document 01": "01-scope.md", "document 02": "02-change-requests.md"}
WHOLE = {
    "document 01": [("The workspace is untouched on", "number it is testing."), ("The equality of demand 2 covers", "with one span."), ("Each public function states", "run and compared.")],
    "document 02": [("Two operators send us", "after 13."), ("Drivers' handhelds still run", "then 7, 8, 9, 13."), ("Write each leg once.", "number 12 included.")],
}
# The sections of the three demands, and those of the requests: what their statements speak of must be believed.
DEMANDS, REQUESTS = (1, 2, 3), (9, 10, 11)
# What a theorem may suppose of tables, orders and queries: where one that is cited does, a witness is wanted.
SUPPOSED = ["Accepted", "Laid", "Listed", "Timed", "Ordered", "Measured", "Searchable", "Sound", "SoundPlaces", "Narrow", "Asked", "Fair", "BothWays", "Ways", "Same", "SamePlaces", "Alike", "Orderly", "Countable", "Wider", "FullSize", "BothShort", "AllTaken", "BadInTimes", "BadInTransfers", "FullAt", "InBuffer"]
MADE = "<!-- From here on made by tests/promises.py: what the rows cite beside the above, row by row. -->"
TOKEN = re.compile(r"\[`([^`]+)`\]\(([^)]*)\)|`([^`]+)`")
BLOCK = re.compile(r'^<a id="[^"]*"></a>\[`([^`]+)`\]\([^)]*\) `([^`]+)`\n\n```text\n(?:(?!```).*\n)*```$', re.M)
writing = sys.argv[1:] == ["write"]
wrong = 0


def complain(what, where=PAGE):
    global wrong
    wrong += 1
    print(f"{where}: {what}")


def anchor(path, name):
    return "-".join([path.split("/")[0], os.path.basename(path).split(".")[0], name])


def block(path, name):
    """A statement as docs/STATEMENTS.md has it: what the modules around it take, and its own text."""
    kind, around, text = source(path, name)
    return "\n".join([f'<a id="{anchor(path, name)}"></a>[`{path}`](../crates/{path}) `{name}`', "", "```text", *around, text, "```"])


def is_path(token):
    return "/" in token


def found_path(path):
    return [p for p in glob.glob(os.path.join(HERE, "crates", path)) + glob.glob(os.path.join(HERE, path)) if os.path.exists(p)]


def cited(cell):
    """The names of a cell, each with the file before it and where its link leads (None: it is no link)."""
    path, names = None, []
    for m in TOKEN.finditer(cell):
        token = m.group(1) or m.group(3)
        if is_path(token):
            path = token
        else:
            names.append((path, token, m.group(2)))
    return names


def moved(path, name):
    """The one file to which a name moved: of its own crate; or of the definitions of another, where it is there what was copied, since names may come again."""
    for part in (f"{path.split('/')[0]}/specs", f"{path.split('/')[0]}/proofs", "*/specs"):
        files = [os.path.relpath(p, os.path.join(HERE, "crates")) for p in glob.glob(f"{HERE}/crates/{part}/**/*.antt", recursive=True)]
        files = [p for p in files if source(p, name) and (part != "*/specs" or f"\n{source(p, name)[2]}\n```" in text_of(COPIES))]
        if len(files) == 1:
            return files[0]
    return None


def relinked(cell):
    """The cell with each name a link to its copy, and a name that moved under its new file."""
    out, at, path, shown = "", 0, None, None
    for m in TOKEN.finditer(cell):
        out += cell[at : m.start()]
        at = m.end()
        token = m.group(1) or m.group(3)
        if is_path(token):
            path = shown = token
            out += f"[`{token}`]({os.path.relpath(token, os.path.dirname(PAGE))})" if token.endswith(".md") else f"`{token}`"
            continue
        own = path
        if path and path.endswith(".antt") and not source(path, token) and moved(path, token):
            own = moved(path, token)
            print(f"{token} is now in {own}")
        if own != shown and own:
            out += f"`{own}` "
            shown = own
        out += f"[`{token}`]({os.path.basename(COPIES)}#{anchor(own, token)})" if own and source(own, token) else f"`{token}`"
    return re.sub(r"`[^`]+\.antt` (?=`[^`]+\.antt`)", "", out + cell[at:])


def rows_of(page):
    """The rows with a number: number, cells, line."""
    for line in page.split("\n"):
        cells = [c.strip() for c in line.strip().strip("|").split(" | ")]
        if line.startswith("|") and re.match(r"\d+\.\d+$", cells[0]):
            yield cells[0], cells[1:], line


def promised(page, sections=DEMANDS):
    """The statements that the rows of these sections cite."""
    return tuple((p, n) for number, cells, line in rows_of(page) if int(number.split(".")[0]) in sections for p, n, link in cited(cells[1]) if p)


def section(page, title):
    found = re.search(rf"^## {re.escape(title)}\n(.*?)(?=^## |\Z)", page, re.M | re.S)
    return found.group(1) if found else ""


def table(text):
    """The rows of a section's table, without its head."""
    lines = [[c.strip() for c in l.strip().strip("|").split(" | ")] for l in text.split("\n") if l.startswith("|")]
    return lines[2:]


# ==== the pages made anew
page, copies, listed = text_of(PAGE), text_of(COPIES), text_of(LIST)
if writing:
    lines = []
    for line in page.split("\n"):
        if re.match(r"\| \d+\.\d+ \|", line):
            cells = line.split(" | ")
            cells[2] = relinked(cells[2])
            line = " | ".join(cells)
        lines.append(line)
    page = "\n".join(lines)
    supposed = section(page, "What the theorems suppose")
    page = page.replace(supposed, "\n".join(relinked(l) if l.startswith("| `") else l for l in supposed.split("\n")))
    page = re.sub(r"(<!-- counted -->\n).*?(<!-- end -->)", lambda m: m.group(1) + counted(promised(page)) + m.group(2), page, flags=re.S)
    more = lambda m: m.group(1) + counted(promised(page, REQUESTS), promised(page)) + m.group(2)
    page = re.sub(r"(<!-- counted of the requests -->\n).*?(<!-- end -->)", more, page, flags=re.S)
    page = re.sub(r"(<!-- of the kit -->\n).*?(<!-- end -->)", lambda m: m.group(1) + kit(promised(page, DEMANDS + REQUESTS)) + m.group(2), page, flags=re.S)

    def again(m):
        path, name = m.group(1), m.group(2)
        if not source(path, name) and moved(path, name):
            path = moved(path, name)
        return block(path, name) if source(path, name) else m.group(0)

    hand = BLOCK.sub(again, copies.split(MADE)[0]).rstrip()
    have = {(m.group(1), m.group(2)) for m in BLOCK.finditer(hand)}
    made = []
    for number, cells, line in rows_of(page):
        new = [(p, n) for p, n, link in cited(cells[1]) if p and source(p, n) and (p, n) not in have]
        if new:
            have |= set(new)
            made += [f"**{number}** {cells[0]}", *(block(p, n) for p, n in dict.fromkeys(new))]
    new = [(p, n) for cells in table(section(page, "What the theorems suppose")) for c in cells[1:] for p, n, link in cited(c) if p and source(p, n) and (p, n) not in have]
    if new:
        made += ["**What the theorems suppose**: witnesses.", *(block(p, n) for p, n in dict.fromkeys(new))]
    copies = hand + "\n\n" + MADE + "\n\n## The rest, row by row\n\n" + "\n\n".join(made) + "\n"
    for path, names in re.findall(r"^    says (\S+) (.*)$", listed, re.M):
        for name in names.split(", "):
            if path.endswith(".antt") and not source(path, name) and moved(path, name):
                old = f"    says {path} {names}\n"
                rest = [n for n in names.split(", ") if n != name]
                listed = listed.replace(old, (f"    says {path} {', '.join(rest)}\n" if rest else "") + f"    says {moved(path, name)} {name}\n")
                names = ", ".join(rest)
    for file, text in ((PAGE, page), (COPIES, copies), (LIST, listed)):
        with open(os.path.join(HERE, file), "w", encoding="utf-8") as f:
            f.write(text)

# ==== the copies
copied = set()
for m in BLOCK.finditer(copies):
    path, name = m.group(1), m.group(2)
    if (path, name) in copied:
        complain(f"{path} {name} is copied twice", COPIES)
    copied.add((path, name))
    if source(path, name) is None:
        complain(f"nothing to copy for {path} {name}", COPIES)
    elif m.group(0) != block(path, name):
        complain(f"the copy of {name} is not the text of {path}", COPIES)
if copies.count("```text\n") != len(copied):
    complain(f"{copies.count('```text') - len(copied)} blocks do not say which statement they copy", COPIES)
ids = re.findall(r'<a id="([^"]*)">', copies)
for one in sorted({i for i in ids if ids.count(i) > 1}):
    complain(f"two statements have the name {one}", COPIES)

# ==== the rows
changes, rows = edits(), {}
for name, fault in changes.items():
    if fault:
        complain(f"the edit {name}: {fault}", "crates")
for number, cells, line in rows_of(page):
    if number in rows:
        complain(f"two rows are {number}")
    rows[number] = cells
    demand = int(number.split(".")[0])
    if len(cells) < 3 or not cells[1]:
        complain(f"nothing says {number}")
        continue
    for token in re.findall(r"`([^`]+)`", TOKEN.sub(lambda m: "" if m.group(1) else m.group(0), cells[1])):
        if is_path(token) and not found_path(token):
            complain(f"{number}: no file {token}")
    kinds = set()
    for path, name, link in cited(cells[1]):
        own = path and source(path, name)
        if not own:
            complain(f"{number}: {name} is no theorem, contract or definition of {path}")
            continue
        kinds.add(own[0])
        if (path, name) not in copied:
            complain(f"{number}: the statement of {path} {name} is not copied")
        if link != f"{os.path.basename(COPIES)}#{anchor(path, name)}" or anchor(path, name) not in ids:
            complain(f"{number}: {name} does not lead to its statement")
    named = re.findall(r"`([^`]+)`", cells[2])
    for name in named:
        if name not in changes:
            complain(f"{number}: no edit {name}")
    if demand <= 3 and not kinds & {"theorem", "contract"}:
        complain(f"{number} has no theorem and no contract")
    if demand <= 3 and not named:
        complain(f"{number} has no edit")
    if demand <= 4 and (len(cells) < 4 or not cells[3]):
        complain(f"{number} names no wrong program")

# ==== the sentences, and what each row must have
origin, sentences, must = "", [], {}
for line in listed.split("\n"):
    if line.startswith("@ "):
        origin = line[2:].strip()
    elif re.match(r"\d+\.\d+ ", line):
        number, words = line.split(" ", 1)
        sentences.append((origin, number, words.strip()))
        must.setdefault(number, [])
    elif line.startswith("    says "):
        path, names = line[9:].split(" ", 1)
        must[number] += [(path, n.strip()) for n in names.split(", ")]
    elif line.startswith("    edits "):
        must[number] += [("edit", n.strip()) for n in line[10:].split(", ")]
    elif line.strip() and not line.startswith("#"):
        complain(f"what is this: {line}", LIST)
for origin, number, words in sentences:
    flat = " ".join(rows.get(number, [""])[0].split())
    if origin == "ours" and not flat.startswith(words) or origin != "ours" and f"\u201c{words}\u201d" not in flat:
        complain(f"row {number} has not the sentence: {words}")
for number, wanted in must.items():
    if number in rows:
        has = {(p, n) for p, n, link in cited(rows[number][1])} | {("edit", n) for n in re.findall(r"`([^`]+)`", rows[number][2])}
        for path, name in wanted:
            if (path, name) not in has:
                complain(f"row {number} does not have {path} {name}")
for number in sorted(set(rows) - set(must)):
    complain(f"row {number} stands in no line of {LIST}")
if sys.argv[1:2] == ["row"]:  # what the list would have to say of a row, to be read before it is taken over
    for path in dict.fromkeys(p for p, n, link in cited(rows[sys.argv[2]][1])):
        print(f"    says {path} {', '.join(n for p, n, link in cited(rows[sys.argv[2]][1]) if p == path)}")
    print("    edits " + ", ".join(re.findall(r"`([^`]+)`", rows[sys.argv[2]][2])))
total = hashlib.sha256("\n".join(f"{o} {n} {w}" for o, n, w in sentences if o != "ours").encode()).hexdigest()[:16]
if sys.argv[1:] == ["sum"]:
    print(total)
elif total != SUM:
    complain(f"the sentences are not those that were agreed: their sum is {total}, not {SUM}", LIST)
for which, file in DOCUMENTS.items():
    file = os.path.join(HERE, "../shared/docs", file)
    if not os.path.isfile(file):
        continue
    document = " ".join(open(file, encoding="utf-8").read().split())
    for origin, number, words in sentences:
        if origin == which and words not in document:
            complain(f"not {which}'s words: {words}", LIST)
    for start, end in WHOLE[which]:
        rest = document[document.index(start) : document.index(end) + len(end)]
        for origin, number, words in sorted(sentences, key=lambda s: -len(s[2])):
            rest = rest.replace(words, "")
        if re.search(r"\w", rest):
            complain(f"left out of {which}: {' '.join(rest.split())}", LIST)

# ==== what the theorems suppose
shown = {}
for cells in table(section(page, "What the theorems suppose")):
    words = re.findall(r"`(\w+)`", cells[0])
    for path, name, link in cited(cells[1]):
        for word in words:
            shown.setdefault((path, name), set()).add(word)
        own = path and source(path, name)
        if not own:
            complain(f"no theorem {path} {name} that supposes {words}")
        elif own[0] == "theorem" and not any(re.search(rf"(?<![\w-]){w}(?![\w-])", asked_and_said(own[1], own[2])[0]) for w in words):
            complain(f"{name} does not suppose {' or '.join(words)}")
    witnesses = cited(cells[2])
    if not witnesses:
        complain(f"no witness for {' '.join(words)}")
    for path, name, link in witnesses:
        own = path and source(path, name)
        if not own or own[0] not in ("theorem", "contract"):
            complain(f"the witness {name} is no theorem of {path}")
        elif own[0] == "theorem":
            asks, says = asked_and_said(own[1], own[2])
            if set(words) & set(SUPPOSED) and not any(re.search(rf"(?<![\w-]){w}(?![\w-])", says) for w in words):
                complain(f"{name} is no witness: it does not conclude {' or '.join(words)}")
            if any(re.search(rf"(?<![\w-]){w}(?![\w-])", asks) for w in SUPPOSED):
                complain(f"{name} is no witness: it supposes something itself")
    for path, name, link in cited(cells[1]) + witnesses:
        if (path, name) not in copied or link != f"{os.path.basename(COPIES)}#{anchor(path, name)}":
            complain(f"{name}, of what the theorems suppose, does not lead to its statement")
for path, name in sorted({(p, n) for cells in rows.values() for p, n, link in cited(cells[1]) if p and p.endswith(".antt")}):
    own = source(path, name)
    if own and own[0] == "theorem":
        asks, says = asked_and_said(own[1], own[2])
        for word in SUPPOSED:
            if re.search(rf"(?<![\w-]){word}(?![\w-])", asks) and word not in shown.get((path, name), ()):
                complain(f"{name} supposes {word}, and no witness is named")

# ==== what must be believed
was = re.search(r"<!-- counted -->\n(.*?)<!-- end -->", page, re.S)
more = re.search(r"<!-- counted of the requests -->\n(.*?)<!-- end -->", page, re.S)
if not was or was.group(1) != counted(promised(page)) or not more or more.group(1) != counted(promised(page, REQUESTS), promised(page)):
    complain("what must be believed is not what is counted: tests/promises.py write")
if was and more and "| ? |" in was.group(1) + more.group(1):
    complain("tests/believed.py does not say what a folder of definitions is about")
was = re.search(r"<!-- of the kit -->\n(.*?)<!-- end -->", page, re.S)
if not was or was.group(1) != kit(promised(page, DEMANDS + REQUESTS)):
    complain("what is taken from the kit is not what the definitions use: tests/promises.py write")

# ==== the map of the crates in README.md
readme, own = text_of("README.md"), set(crates())
for line in readme.split("\n"):
    if line.startswith("| `"):
        for name in re.findall(r"`([^`]+)`", line.split(" | ")[0]):
            if name not in own:
                complain(f"no crate {name}", "README.md")
for name in sorted(own - set(re.findall(r"`([^`]+)`", readme))):
    complain(f"the map leaves out {name}", "README.md")
print(f"{len(sentences)} sentences, {len(rows)} promises, {len(copied)} statements copied, {wrong} wrong")
sys.exit(wrong > 0)
