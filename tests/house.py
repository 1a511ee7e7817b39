#!/usr/bin/env python3
# The rules of the house, held to the tree: what specs/ and contracts may cite, how wide a line and how long a list of parameters may be, that each file says
# its subject first, that a name of the definitions means one thing, that nobody keeps a law which nothing reaches, that PROVING.md draws the crates
# as they are, and that no link of a page is dead. Each rule prints what breaks it.
import glob, os, re, sys

sys.dont_write_bytecode = True  # no folder of compiled scripts in the tree
from believed import file_of, names, used
from reading import HERE, crates, every_function, indent, needs, text_of, there

WIDEST, MOST = 140, 7
DECISIONS, PROVING = "docs/DECISIONS.md", "docs/PROVING.md"
# A name that the definitions of some crates share: which (`one two`), and why they may. Any other crate's is refused all the same, and so is a file that
# cites two of them.
TWICE = {
    "Chosen": ("model raptor_reply", "the routes that are chosen, and the stop that is: document 01 has one word for both"),
}
# A law or a definition that nothing reaches, and why it stays.
ALONE = {}
# A file whose attributes may be wider than a line, since the layout keeps each on one: how many are.
WIDE = {"crates/kiosk_c/src/legs.rt": 2}
NAME = r"[^\s(){}«»,;:\[\]λ.]+"
TOKEN = re.compile(r"[^\W\d_][\w'⁺₀-₉ᴰ-]*")
# What is written of the proof of one function, in its own folder; and how `#[tactic(..)]` names a law or a definition.
PROVED = ("Invariants.antt", "Answers.antt", "Proof.antt")
OF_CRATE = re.compile(r"\bcrate::(proofs|specs)::([\w:]+)::(\w+)")
wrong = 0


def complain(where, what):
    global wrong
    wrong += 1
    print(f"{where}: {what}")


def files(pattern):
    return sorted(os.path.relpath(p, HERE) for p in glob.glob(os.path.join(HERE, pattern), recursive=True) if os.path.isfile(p))


class Declared:
    """A name that an .antt file declares: `record`, `data`, `abbrev`, `unfoldable`, or `law` for all else that has a type and a text of its own; its
    line, and the words of its own text."""

    def __init__(self, name, kind, public, line):
        self.name, self.kind, self.public, self.line, self.own = name, kind, public, line, []


HEADS = re.compile(rf"^ *(abbrev |unfoldable )?(pub )?(record |data )?({NAME})(?= |$)")
WORDS = {"use", "pub", "mod", "module", "unfolding", "where", "let", "in", "--", "abbrev", "unfoldable", "record", "data"}


def declared(path):
    """What the file declares, in its order. Fields of a record and cases of a data type are part of it; what stands in a `where` below a law is part of
    that law; the head of a `module _` belongs to no name, and what it takes is kept apart."""
    found, open_at, heads, inside = [], None, [], 0
    text = re.sub(r"--[^\n]*", "", text_of(path))
    for number, line in enumerate(text.split("\n"), 1):
        if not line.strip():
            continue
        depth = indent(line)
        if open_at is not None and depth > open_at:
            found[-1].own.append(line)
            continue
        if inside:  # the head of a module goes on to its `where`
            heads.append(line)
            inside = not line.rstrip().endswith("where")
            continue
        if re.match(r" *(pub )?(use|mod) ", line):
            open_at = None
            continue
        if re.match(r" *module ", line):
            heads.append(line)
            inside, open_at = not line.rstrip().endswith("where"), None
            continue
        if re.match(r" *unfolding ", line):
            if found:
                found[-1].own.append(line)
            continue
        head = HEADS.match(line)
        name = head.group(4) if head else None
        typed = head and (head.group(3) or re.match(r" *:", line[head.end() :]))
        if typed and name not in WORDS:
            kind = (head.group(3) or head.group(1) or "law ").strip()
            found.append(Declared(name, kind, bool(head.group(2)), number))
            found[-1].own.append(line)
            open_at = depth
        elif found:
            found[-1].own.append(line)  # a clause of what was declared above
            open_at = depth
    return found, heads


def proves(one):
    """Whether what is declared as a definition gives a proof: the end of its type is an equation or an order of numbers."""
    head = "\n".join(one.own)
    kind = head[head.index(" :") + 2 :] if " :" in head else ""
    kind = re.split(rf"\n *(?:unfolding |{re.escape(one.name)}(?= ))", kind)[0]
    depth, last = 0, 0
    for at, c in enumerate(kind):
        depth += (c in "({") - (c in ")}")
        if c == "→" and depth == 0:
            last = at + 1
    depth, end = 0, ""
    for c in kind[last:]:
        depth += (c in "({") - (c in ")}")
        end += c if depth == 0 else ""
    return one.kind in ("abbrev", "unfoldable") and re.search(r"[≡≤<≢⊎×]", end)


# ==== specs hold definitions and cite no proofs; a contract cites none either
# The modules of the kit's proofs in which stand definitions that ours are made of.
THEIRS = ("Rattle.std.proofs.lemmas.List.Edits",)
for path in files("crates/*/specs/**/*.antt"):
    for one in declared(path)[0]:
        if one.kind == "law" or proves(one):
            complain(f"{path}, line {one.line}", f"{one.name} is a law or a text that stays shut: definitions are records, data, `abbrev` or `unfoldable`")
    for module in re.findall(r"^\s*(?:pub )?use (Rattle\.\w+\.proofs\.[^\s{]+)", text_of(path), re.M):
        if module.rstrip(".") not in THEIRS:
            complain(path, f"a definition cites a proof: {module}")
for path in files("crates/*/src/**/*.rt"):
    for module in re.findall(r"^\s*ghost use (Rattle\.\w+\.proofs\.[^;{]+)", text_of(path), re.M):
        if module.rstrip(".") not in THEIRS:
            complain(path, f"a contract cites a proof: {module}")

# ==== no wide line of code
for path in files("crates/*/src/**/*.rt"):
    wide = [(number, line) for number, line in enumerate(text_of(path).split("\n"), 1) if len(line) > WIDEST]
    bare = [number for number, line in wide if re.fullmatch(r" *#\[tactic\([\w:, ()-]*\)\]", line)]  # an attribute and nothing beside it
    if path in WIDE and len(bare) < WIDE[path]:
        complain("tests/house.py", f"{path} has {len(bare)} wide attributes, and WIDE says {WIDE[path]}")
    for number, line in (one for one in wide if one[0] not in bare or len(bare) > WIDE.get(path, 0)):
        complain(f"{path}, line {number}", f"{len(line)} characters, and {WIDEST} are the most")

# ==== no function of a library with more than seven parameters, unless it is said why
said = re.search(r"^## More than seven parameters\n(.*?)(?=^## |\Z)", text_of(DECISIONS), re.M | re.S)
named, long = set(re.findall(r"`(\w+(?:::\w+)+)`", said.group(1))) if said else set(), set()
for crate in crates():
    for path in files(f"crates/{crate}/src/*.rt") if there(f"crates/{crate}/src/lib.rt") else []:
        for f in every_function(path):
            many = len([p for p in f.parameters.split(",") if p.strip()])
            if many > MOST:
                long.add(f.where)
                if f.where not in named:
                    complain(path, f"{f.where} takes {many} parameters, {MOST} are the most, and {DECISIONS} does not say why")
for name in sorted(named - long):
    complain(DECISIONS, f"{name} takes no more than {MOST} parameters, or is no function of a library: take it off the list")

# ==== each file says its subject first
tracked = files("crates/*/src/**/*.rt") + files("crates/*/specs/**/*.antt") + files("crates/*/proofs/**/*.antt")
scripts = [p for folder in ("tests", "tools", "compare", "bench", "plain", "rust", "oracle") for end in ("py", "sh", "c", "h", "rs") for p in files(f"{folder}/**/*.{end}")]
for path in tracked + ["test", "kiosk", "checkjourney"] + [p for p in scripts if "/target/" not in p and "/shims/" not in p]:
    lines = text_of(path).split("\n")
    first = lines[1] if lines[0].startswith("#!/") and len(lines) > 1 else lines[0]
    if not re.match(r"(--|//!?|#|/\*\*?|\"\"\") ?[\w`\"“]", first) and not first.startswith("#![doc ="):
        complain(path, "its first line does not say what it is about")

# ==== a name of the definitions means one thing
where = {}
# The modules of the kit's proofs in which stand definitions that ours are made of.
THEIRS = ("Rattle.std.proofs.lemmas.List.Edits",)
for path in files("crates/*/specs/**/*.antt"):
    for one in declared(path)[0]:
        if one.public:
            where.setdefault(one.name, []).append(path)
for name, paths in sorted(where.items()):
    sharing = TWICE.get(name, ("", ""))[0].split()
    others = [p for p in paths if p.split("/")[1] not in sharing]
    if len(others) + (len(others) < len(paths)) > 1:
        complain(" and ".join(paths), f"both define {name}")
for path in files("crates/*/specs/**/*.antt") + files("crates/*/proofs/**/*.antt") + files("crates/*/src/**/*.rt"):
    cites = {}
    for module, braces in used(path[len("crates/") :]):
        for now, was in names(braces):
            if was in TWICE and isinstance(file_of(module), str):
                cites.setdefault(was, set()).add(f"crates/{file_of(module)}")
    for name in sorted(n for n in TWICE if len(cites.get(n, set()) | ({path} & set(where.get(n, [])))) > 1):
        complain(path, f"it cites two definitions of {name}")
for name, (sharing, why) in TWICE.items():
    if len(where.get(name, [])) < 2 or not set(sharing.split()) <= {p.split("/")[1] for p in where.get(name, [])}:
        complain("tests/house.py", f"{name} is not shared by {sharing}: take that off the list")

# ==== no law and no definition that nothing reaches: from what the prover asks of each function, from contracts and from pages
def tokens(text):
    return set(TOKEN.findall(text))


def reached_by(path, text):
    """The laws and definitions that a text of a file speaks of, each as its file and name: those of its own file, and those that it uses."""
    words = tokens(text)
    own = {(path, name) for name in NAMED.get(path, ()) if name in words or "◌" in name and tokens(name.replace("◌", " ")) <= words}
    own |= {(f"crates/{path.split('/')[1]}/{part}/{module.replace('::', '/')}.antt", name) for part, module, name in OF_CRATE.findall(text)}
    for module, braces in used(path[len("crates/") :]):
        file = file_of(module)
        if isinstance(file, str):
            own |= {(f"crates/{file}", was) for now, was in names(braces) if now in words or "◌" in now}
    return own


NAMED, LAW, roots = {}, {}, set()
for path in files("crates/*/proofs/**/*.antt") + files("crates/*/specs/**/*.antt"):
    own, heads = declared(path)
    NAMED[path] = {one.name for one in own}
    if path.count("/") > 3 and os.path.basename(path) in PROVED:  # what the prover asks of a function
        roots |= reached_by(path, "\n".join(line for one in own for line in one.own))
        continue
    LAW |= {(path, one.name): one for one in own}
    roots |= reached_by(path, "\n".join(heads))
for path in files("crates/*/src/**/*.rt"):
    roots |= reached_by(path, re.sub(r"//[^\n]*", "", text_of(path)))
said = set()
for path in ["README.md"] + [p for p in files("docs/*.md") if p not in (PROVING, "docs/LANDINGS.md", "docs/DESIGN-PASS.md")]:
    said |= tokens(text_of(path))
roots |= {key for key in LAW if key[1] in said}
reached, todo = set(), list(roots)
while todo:
    one = todo.pop()
    if one in LAW and one not in reached:
        todo += reached_by(one[0], "\n".join(LAW[one].own))
    reached.add(one)
for path, name in sorted(k for k in LAW if k not in reached and k[1] not in ALONE):
    complain(f"{path}, line {LAW[path, name].line}", f"nothing reaches {name}")
for name in sorted(n for n in ALONE if all(k in reached for k in LAW if k[1] == n)):
    complain("tests/house.py", f"{name} is reached, or is nothing of ours: take it off the list")

# ==== the drawing of the crates
# The columns of the house, each with the comments of crates.txt under which its crates stand.
COLUMNS = [("the ground", ("",)), ("feeds", ("what operators",)), ("the tables", ("the tables",)), ("the search", ("the search",)), ("handhelds", ("journeys that",)), ("its faces", ("the hypotheses", "what C")), ("programs", ("programs", "what a person"))]


def floors():
    """Each crate with its floor, one above the highest of those that it rests on, and its column."""
    at, column, found = {}, 0, {}
    for line in text_of("crates.txt").split("\n")[1:]:
        if line.startswith("#"):
            own = [c for c, (head, words) in enumerate(COLUMNS) if any(w and line[1:].strip().startswith(w) for w in words)]
            column = own[0] if own else column
            if not own:
                complain("crates.txt", f"tests/house.py does not know in which column of the drawing this stands: {line}")
        elif ":" in line:
            crate = re.match(r"\w+", line).group()
            at[crate] = 1 + max((at[b] for b in needs()[crate] if b in at), default=-1)
            found[crate] = (at[crate], column)
    return found


def drawing():
    """The house from the roof down, as docs/PROVING.md has it: a row for each floor, a column for each part."""
    found = floors()
    cells = {}
    for crate, where_ in found.items():
        cells.setdefault(where_, []).append(crate)
    wide = [max([len(head)] + [len(c) for (f, k), own in cells.items() if k == column for c in own]) for column, (head, words) in enumerate(COLUMNS)]
    rows = ["     " + "   ".join(head.ljust(w) for (head, words), w in zip(COLUMNS, wide)).rstrip()]
    for floor in reversed(range(1 + max(f for f, k in found.values()))):
        own = [cells.get((floor, column), []) for column in range(len(COLUMNS))]
        rows.append("     " + "─" * (sum(wide) + 3 * (len(wide) - 1)))
        for line in range(max(map(len, own))):
            rows.append(f"{floor if line == 0 else '':>3}  " + "   ".join((c[line] if line < len(c) else "").ljust(w) for c, w in zip(own, wide)).rstrip())
    return "\n".join(rows)


if there(PROVING):
    shown = re.search(r"<!-- the floors -->\n```text\n(.*?)\n```\n", text_of(PROVING), re.S)
    if sys.argv[1:] == ["write"] and shown:
        with open(os.path.join(HERE, PROVING), "w", encoding="utf-8") as f:
            f.write(text_of(PROVING)[: shown.start(1)] + drawing() + text_of(PROVING)[shown.end(1) :])
    elif not shown or shown.group(1) != drawing():
        complain(PROVING, "its drawing is not crates.txt: tests/house.py write")

# ==== no dead link; each page of docs/ is reached from README.md
def anchors(path):
    """The places of a page that a link may name: its headings, as they are made into links, and its anchors."""
    text = re.sub(r"^```.*?^```$", "", text_of(path), flags=re.M | re.S)
    heads = [re.sub(r"[^\w\- ]", "", h.lower()).replace(" ", "-") for h in re.findall(r"^#+ (.*)$", text, re.M)]
    return set(heads) | set(re.findall(r'<a id="([^"]+)"', text))


linked = {}
pages = ["README.md"] + files("docs/*.md") + files("rust/*.md") + files("oracle/*.md") + files("compare/*.md") + files("bench/*.md")
for path in pages:
    text = re.sub(r"^```.*?^```$", "", text_of(path), flags=re.M | re.S)
    for link in re.findall(r"\]\(([^)\s]+)\)", text):
        if re.match(r"[a-z]+:", link):
            continue
        file, _, place = link.partition("#")
        to = os.path.normpath(os.path.join(os.path.dirname(path), file)) if file else path
        linked.setdefault(path, set()).add(to)
        if not os.path.exists(os.path.join(HERE, to)):
            complain(path, f"a link leads nowhere: {link}")
        elif place and (not to.endswith(".md") or place not in anchors(to)):
            complain(path, f"a link leads to no place of {to}: {link}")
    plain = re.sub(r"\[[^\]]*\]\([^)]*\)", "", text)
    for page in sorted(set(re.findall(r"(?<![\w/.])(?:docs/)?([A-Z0-9-]+\.md)(?![\w/])", plain))):
        if there(f"docs/{page}") and path != f"docs/{page}":
            complain(path, f"{page} is named and not linked")
for path in files("docs/*.md"):
    if path not in linked.get("README.md", ()):
        complain("README.md", f"it does not lead to {path}")
    if path != "docs/LETTER.md" and "README.md" not in linked.get(path, ()):  # the letter is for who needs no other page
        complain(path, "it does not lead back to README.md")

print(f"{len(crates())} crates on {1 + max(f for f, k in floors().values())} floors, {len(where)} names of definitions, {len(LAW)} laws and definitions, {sum(map(len, linked.values()))} pages linked, {wrong} wrong")
sys.exit(wrong > 0)
