#!/usr/bin/env python3
# Writes docs/FUNCTIONS.md: every public function of every crate, a trait's methods too, what its contract or the trait's law states, in its own words, and by
# what two results that meet it are equal. A function that leaves something unsaid or open must stand in a list below, alone and with the reason;
# one that stands there without need is an error too. With `check` the page is only held to the tree.
import glob, os, re, sys

sys.dont_write_bytecode = True  # no folder of compiled scripts in the tree
from reading import HERE, crates, every_function, needs, source, text_of, with_names

# What prints or reads: where the words come from or go to is in no contract of the kit's library, so the tests compare it.
PRINTS = "prints"
READS = "reads its arguments, its input or a file"
OUTSIDE = {
    "arguments::moment::ClockDisplay::fmt": PRINTS,
    "arguments::options::SaidDisplay::fmt": PRINTS,
    "arguments::options::NoOptionDisplay::fmt": PRINTS,
    "print::text": PRINTS,
    "print::number": PRINTS,
    "print::field": PRINTS,
    "print::leg": PRINTS,
    "print::legs": PRINTS,
    "replay::probe::answer_line": PRINTS,
    "replay::rust::answer_line": PRINTS,
    "input::read_full": READS,
    "input::read_input": READS,
    "input::read_or_unreadable": READS,
    "loading::FaultDisplay::fmt": PRINTS,
    "loading::load": READS,
    "loading::print_fault": PRINTS,
    "network::load": READS,
    "refusing::meant::NumberedDisplay::fmt": PRINTS,
    "refusing::meant::print_meant": PRINTS,
    "refusing::meant::print_missing": PRINTS,
    "refusing::print_meaning": PRINTS,
    "telling::StayDisplay::fmt": PRINTS,
    "telling::tell_asked": PRINTS,
    "gtfs_again::write_and_read": PRINTS,
    "gtfs_telling::print_counts": PRINTS,
    "gtfs_telling::print_number": PRINTS,
    "gtfs_telling::print_refused": PRINTS,
    "gtfs_telling::print_rows": PRINTS,
    "querying::read_query": READS,
    "querying::asks_help": READS,
}
# What states less than it could, and why that is borne: nothing.
LESS = {}
# Where two results that meet the statement may differ, in what, and why that is borne: in where a text of a feed stands.
TEXT = "where a text stands: its bytes are said, and that they stand there, not which of its places is told"
BOOK = "where an id's text stands in its file: the ids are said, each at its number, and that its bytes stand at the place told; all else is fixed"
OPEN = {
    "csv_text::field": TEXT,
    "columns::pick": TEXT,
    "gtfs_lines::time_line": TEXT,
    "gtfs_lines::transfer_line": TEXT,
    "names::add": BOOK,
    "gtfs_rows::books::name": BOOK,
    "gtfs_rows::times::enter": BOOK,
    "gtfs_rows::times::take": BOOK,
    "gtfs_times::read_times": BOOK,
    "gtfs_paths::enter": BOOK,
    "gtfs_paths::take": BOOK,
    "gtfs_transfers::read_transfers": BOOK,
    "gtfs_read::read": BOOK,
    "gtfs_c::kiosk_gtfs_read": BOOK,
    "gtfs_export::kiosk_gtfs_read": BOOK,
}
# What a law of its own fixes: two results that meet the function's contract are equal by it.
OWN = {
    "csv_text::line": ("csv_text/proofs/Stepping.antt", "line_once"),
    "gtfs_headers::start": ("gtfs_headers/proofs/Marks.antt", "start_ends"),
    "names::clear": ("names/proofs/Clearing.antt", "empty_unique"),
    "allocator::Workspace::new": ("allocator/proofs/Unique.antt", "over_unique"),
}
# What fixes the words and marks or the whole where a clause is no equation: a word of the clause, and the law that two things it holds of are equal.
LAWS = {
    "Solved": ("raptor/proofs/Unique.antt", "solved_unique"),
    "Faced": ("kiosk_c/proofs/Unique.antt", "faced_unique"),
    "Ran": ("raptor/proofs/Unique.antt", "ran_unique"),
    "Tells": ("asking/proofs/Unique.antt", "asked_unique"),
    "Does": ("allocator/proofs/Unique.antt", "does_unique"),
    "Becomes": ("allocator/proofs/Unique.antt", "becomes_unique"),
    "Usable": ("allocator/proofs/Same.antt", "same_words"),
    "Tidy": ("allocator/proofs/Same.antt", "same_words"),
}
# What tells two results apart: a definition that a clause puts before the result, and the law that it gives no two of them one value.
TELLS = {
    "number_given": ("model/proofs/Refusals.antt", "given_once"),
    "by_number": ("gtfs_write/proofs/Numbered.antt", "by_number_once"),
}
OPERATIONS = ("Does", "Becomes")  # what the operation is must itself be fixed
BESIDE = ("Usable", "Tidy")  # nothing stands beside the state: the rest is said by the state itself
# What C links: each function of a library once more, with the same clauses.
EXPORTS = {"kiosk_export": "kiosk_c", "gtfs_export": "gtfs_c"}
EQUATION = "equation"
# The same of what is given back where no read and no write fails.
ON_OK = "equation on `Ok`"


def sides(conjunct):
    """The two sides of an equation, or nothing: one that holds only on a condition is none."""
    depth, at_equals = 0, None
    for at, c in enumerate(conjunct):
        depth += (c in "({[⟦") - (c in ")}]⟧")
        if depth == 0 and c in "→↔⊎":
            return None
        if depth == 0 and c == "≡" and at_equals is None:
            at_equals = at
    return at_equals and (conjunct[:at_equals].strip(), conjunct[at_equals + 1 :].strip())


def of_ok(clause):
    """What a clause says of the result's value where there is no error of reading or writing, and whether it says so."""
    found = re.fullmatch(r"(?:IfOk|OnOk) result \(λ (\w+)\. (.*)\)", clause)
    return (re.sub(rf"(?<![\w.'-]){found.group(1)}(?![\w'-])", "result", found.group(2)), True) if found else (clause, False)


def parts(clause):
    """The conjuncts of a clause."""
    pieces, depth, start = [], 0, 0
    for at, c in enumerate(clause):
        depth += (c in "({[⟦") - (c in ")}]⟧")
        if c == "×" and depth == 0:
            pieces.append(clause[start:at])
            start = at + 1
    pieces = [p.strip() for p in pieces + [clause[start:]]]
    pieces = [p[1:-1].strip() if p.startswith("(") and p.endswith(")") and sides(p) is None else p for p in pieces]
    return [re.sub(r"^\(\w+ : ℕ\) → ", "", p) for p in pieces]  # what holds for every number holds for one


def arguments(term):
    """The words and bracketed parts of a term, as they follow one another."""
    found, depth, start = [], 0, 0
    for at, c in enumerate(term + " "):
        depth += (c in "({[⟦") - (c in ")}]⟧")
        if c == " " and depth == 0:
            found.append(term[start:at])
            start = at + 1
    return [a for a in found if a]


def stated(f):
    """What the contract states, in its own words."""
    if "result" in re.findall(r"(\w+)\s*:", f.parameters):
        complain(f"{f.path}: {f.where} calls a parameter `result`, the word that a clause has for what is given back")
    return "; ".join("`" + clause.replace("|", "\\|") + "`" for clause in f.says)


def fields_of(kind):
    """The fields of a struct of the tree."""
    for path in STRUCTS.get(kind, []):
        found = re.search(r"^pub struct " + kind + r"(?:<[^>]*>)? \{(.*?)^\}", text_of(path), re.M | re.S)
        if found:
            return set(re.findall(r"^\s*(?:pub )?(\w+):", re.sub(r"//[^\n]*", "", found.group(1)), re.M))
        return {"0"}
    return set()


def meant(f):
    """The clauses of a function; where a trait's law is a definition of the crate's own, that definition's text, which is what it says."""
    for clause in f.says:
        name, *values = clause.split(" ")
        for path in glob.glob(f"{HERE}/crates/{f.path.split('/')[1]}/specs/*.antt") if f.trait and re.fullmatch(r"\w+", name) else []:
            told = re.search(rf"^abbrev pub {name} :.*\n{name} ([\w ]+) = (.*)$", text_of(os.path.relpath(path, HERE)), re.M)
            if told:
                clause = with_names(told.group(2), dict(zip(told.group(1).split(), values)))
        yield clause


def shape_of(what):
    """How a clause speaks of a thing lent as it is left, or, where `what` is empty, of the result."""
    return r"(?<![\w.«-])" + (rf"(?:«{what}»|{what})\.new" if what else "result") + r"(?![\w'-])"


def fixed_by(f, what):
    """By what two results agree in `what`, a thing lent or "" for the result, and on what else that rests: `equation`, a law, `unsaid`, or `open` where it is
    spoken of and not fixed."""
    spoken, laws, fields, rests, state = False, [], set(), set(), False
    others = [w for w in ([""] if f.result else []) + f.lent() if w != what]
    shape = shape_of(what)
    for clause, is_on_ok in map(of_ok, meant(f)):
        for c in (c for c in parts(clause) if re.search(shape, c)):
            spoken = True
            for law in (w for w in LAWS if re.search(rf"(?<![\w-]){w}(?![\w-])", c) and source(*LAWS[w])):
                told = " ".join(a for a in arguments(c) if not re.fullmatch(r"\S+\.new", a))
                if law in OPERATIONS and re.search(shape, told):
                    continue  # the operation is told by what it leaves
                laws.append(law)
                if law in OPERATIONS:  # all of the operation but what it leaves
                    rests |= {w for w in others if re.search(shape_of(w), told)}
            both = sides(c)
            for side, other in (both, both[::-1]) if both else ():
                side = side[1:-1] if side.startswith("(") and side.endswith(")") else side
                if re.search(shape, other):
                    continue  # it is told by itself
                on = {w for w in others if re.search(shape_of(w), other)}
                if re.fullmatch(rf"{shape}(?:\.now)?", side):
                    return ON_OK if is_on_ok else EQUATION, on
                told = re.fullmatch(rf"(\w+) {shape}", side)
                if told and told.group(1) in TELLS and source(*TELLS[told.group(1)]):
                    return TELLS[told.group(1)][1], on
                field = re.fullmatch(rf"{shape}\.(\w+)" + (r"(?:\.now)?" if what == "self" else ""), side) if what in ("", "self") else None
                if field:
                    fields.add(field.group(1))
                    rests |= on
                state = state or bool(re.match(r"(view|state_of \(view) ", side) and re.search(shape, side))
    if fields and fields >= fields_of(f.kind if what else f.result):
        return EQUATION, rests
    if laws and laws[0] not in BESIDE:
        return laws[0], rests if laws[0] in OPERATIONS else set()
    # the state that words and marks hold is said whole, and that nothing stands beside it
    beside = next((w for w in BESIDE for c in f.says if re.search(rf"(?<![\w-]){w}(?![\w-])", c) and source(*LAWS[w])), None)
    if state and beside:
        return beside, set()
    return ("open" if spoken else "unsaid"), set()


def fixed(f):
    """By what each thing is fixed. What rests on a thing that is not fixed, or on itself by way of another, fixes nothing."""
    by = {what: fixed_by(f, what) for what in ([""] if f.result else []) + f.lent()}
    if f.where in OWN and source(*OWN[f.where]):
        by = {what: (f.where, set()) if how == "open" else (how, rests) for what, (how, rests) in by.items()}
    sure = set()
    while True:
        more = {what for what, (how, rests) in by.items() if how not in ("open", "unsaid") and what not in sure and rests <= sure}
        if not more:
            break
        sure |= more
    return {what: how if what in sure or how == "unsaid" else "open" for what, (how, rests) in by.items()}


def outside():
    """Every function that prints or reads, itself or through one that it calls, by crate and name."""
    reach, found = {}, set()
    for crate, own in FUNCTIONS.items():
        below = [crate] + NEEDS[crate]
        for f in own:
            if re.search(r"\bimpl \w|\bHostRuntime\b|\bfmt::Formatter\b", f.parameters):
                found.add((crate, f.name))
            reach[crate, f.name] = {(c, n) for n in re.findall(r"(\w+)\(", f.body) for c in below}
    while True:
        more = {k for k, calls in reach.items() if k not in found and calls & found}
        if not more:
            return found
        found |= more


def complain(what):
    global wrong
    wrong += 1
    print(what)


def of_tests(path):
    """Whether a file is a module of tests, which no other crate can name: the root of its crate says so."""
    root = f"{os.path.dirname(path)}/lib.rt"
    return os.path.exists(root) and re.search(rf"^#\[cfg\(test\)\]\nmod {os.path.basename(path)[:-3]};", text_of(os.path.relpath(root, HERE)), re.M)


NEEDS = needs()
FILES = {c: sorted(os.path.relpath(p, HERE) for p in glob.glob(f"{HERE}/crates/{c}/src/*.rt") if not of_tests(p)) for c in crates()}
FUNCTIONS = {c: [f for p in FILES[c] for f in every_function(p)] for c in FILES}
STRUCTS = {}
for paths in FILES.values():
    for path in paths:
        for kind in re.findall(r"^pub struct (\w+)", text_of(path), re.M):
            STRUCTS.setdefault(kind, []).append(path)

rows, wrong, met, goes_out = [], 0, set(), outside()
for crate in FILES:
    for f in (f for f in FUNCTIONS[crate] if f.public):
        met.add(f.where)
        by = fixed(f)
        named = lambda what: f"what it leaves in {what}" if what else "its result"
        unsaid = [named(w) for w, b in by.items() if b == "unsaid"]
        loose = [named(w) for w, b in by.items() if b == "open"]
        listed = [name for name, table in (("OUTSIDE", OUTSIDE), ("LESS", LESS), ("OPEN", OPEN)) if f.where in table]
        complete = by and not unsaid and not loose
        if complete and listed:
            complain(f"{f.path}: {f.where} is listed in {listed[0]} and states all: take it off the list")
        if not by and f.says and listed:
            complain(f"{f.path}: {f.where} is listed in {listed[0]} and states what it must")
        if len(listed) > 1:
            complain(f"{f.path}: {f.where} is listed in {' and '.join(listed)}")
        if f.where in OUTSIDE and (crate, f.name) not in goes_out:
            complain(f"{f.path}: {f.where} is said to print or read, and nothing that it calls does")
        if f.where in OPEN and (unsaid or not f.says):
            complain(f"{f.path}: {f.where} leaves unsaid {', '.join(unsaid) or 'everything'}: that is more than open")
        if not listed:
            if not f.says:
                complain(f"{f.path}: {f.where} states nothing")
            elif unsaid:
                complain(f"{f.path}: {f.where} does not say {', '.join(unsaid)}")
            elif loose:
                complain(f"{f.path}: {f.where} leaves open {', '.join(loose)}")
        laws = {f"`{(LAWS | OWN)[b][1]}`" for b in by.values() if b in LAWS or b in OWN} | {f"`{law}`" for b in by.values() for _, law in TELLS.values() if b == law}
        if f.where in OWN and f.where not in by.values():
            complain(f"{f.path}: {f.where} is listed in OWN, and its law is not there or not needed")
        reason = OUTSIDE.get(f.where) or LESS.get(f.where) or (f.where in OPEN and "open: " + OPEN[f.where]) or ""
        unique = "; ".join([how for how in (EQUATION, ON_OK) if how in by.values()] + sorted(laws) + ([reason] if reason else []))
        rows.append(f"| `{f.where}` | [`{f.path[len('crates/'):]}`](../{f.path}) | {len(f.asks) or ''} | {stated(f) or 'nothing'} | {unique} |")
for name in sorted((set(OUTSIDE) | set(LESS) | set(OPEN) | set(OWN)) - met):
    complain(f"tests/functions.py: there is no function {name}")

for crate, library in EXPORTS.items():
    exported, own = ({f.name: f for f in FUNCTIONS[c] if f.public} for c in (crate, library))
    for name in sorted(set(exported) ^ set(own)):
        complain(f"crates/{crate}/src/lib.rt: {crate} and {library} do not both have {name}")
    for name, f in exported.items():
        contract = lambda g: (g.parameters.split(), g.result, g.asks, g.says)
        if name in own and contract(f) != contract(own[name]):
            complain(f"{f.path}: {f.where} has not the parameters and clauses of {own[name].where}")

page = """# Every public function

Made by `tests/functions.py` from the sources: of each public function of a crate, the file in which its contract stands over its body, how much
it asks of its caller (`requires`), what it states of its result and of everything lent (`ensures`), and by what two results that meet that are equal.
[README.md](../README.md) leads to the other pages. The functions that other programs call, those of `raptor` and `kiosk_c`, ask for nothing,
but for the forms named `_checked`, which ask for tables that were checked. What C links, `kiosk_export` and `gtfs_export`, has the contracts of `kiosk_c` and
`gtfs_c` once more. The methods by which a type has a trait of the library, `from`, `next` and `fmt`, stand among them, under the prover's names:
`U32FromFile::from` is that of `impl From<File> for u32`. What a `from` or a `next` states is its trait's law (`from_gives`, `next_gives`); a `fmt` has
none, and stands among what prints. What a `#[derive(..)]` makes is not ours, and stands nowhere here.

What is stated is the contract's own text, or that of the trait's law. A slice that may be written is `words.old` as it comes and `words.new` as it is left, one that is only read is
`tables.now`, and what is given back is the `result`. The definitions named stand in
`crates/NAME/specs`; those that the promises rest on are copied in [STATEMENTS.md](STATEMENTS.md).

The last column: *equation*, where the result and each slice that may be written is said to be equal to something; then two results are equal at once;
*equation on `Ok`*, where that is said of what is given back if no read and no write fails.
`becomes_unique` (`allocator/proofs/Unique.antt`), where it is the record `Becomes`, what an operation makes of a `Workspace` (`does_unique` says it of the
record `Does`, over words and marks that are handed side by side; `becomes_does` leads from the one to the other); `same_words`
(`allocator/proofs/Same.antt`), where it says the state that words and marks hold and that they are `Tidy` or `Usable` (nothing stands beside that state):
two tidy workspaces of one state are equal word for word.
`solved_unique`, `ran_unique`
(`raptor/proofs/Unique.antt`), `faced_unique` (`kiosk_c/proofs/Unique.antt`) and `asked_unique` (`asking/proofs/Unique.antt`), where it is the record
`Solved`, `Ran`, `Faced` or `Tells`. `given_once` (`model/proofs/Refusals.antt`) and `by_number_once` (`gtfs_write/proofs/Numbered.antt`), where
a refusal is told by its number. `part_ends` (`csv_text/proofs/Parts.antt`), `start_ends` (`gtfs_headers/proofs/Marks.antt`), `empty_unique`
(`names/proofs/Clearing.antt`) and `over_unique` (`allocator/proofs/Unique.antt`), for one or two functions each. What prints or reads, states less, or is left open stands there with the reason; `tests/functions.py` has the lists,
function by function, and refuses a name that stands there without need.

| function | where | asks | states | unique by |
|---|---|---|---|---|
""" + "\n".join(rows) + "\n"
if sys.argv[1:] == ["check"]:
    if text_of("docs/FUNCTIONS.md") != page:
        complain("docs/FUNCTIONS.md is not what tests/functions.py writes")
else:
    with open(os.path.join(HERE, "docs/FUNCTIONS.md"), "w", encoding="utf-8") as f:
        f.write(page)
print(f"{len(rows)} public functions, {len(OUTSIDE)} print or read, {len(LESS)} state less, {len(OPEN)} leave something open, {wrong} wrong")
sys.exit(wrong > 0)
