#!/usr/bin/env python3
# A test of the tests: a copy of the tree is damaged in each way in which a page could come to say more than is so, or the house could fall into disorder, and
# the script that holds it must complain. Where a page is made from the tree it is made anew first, as a hurried hand would.
import concurrent.futures, glob, os, re, shutil, subprocess, sys, tempfile

HERE = os.path.abspath(os.path.join(os.path.dirname(os.path.abspath(__file__)), ".."))
PAGE, COPIES, LIST, LISTS, LETTER = "docs/PROMISES.md", "docs/STATEMENTS.md", "tests/sentences.txt", "tests/functions.py", "docs/LETTER.md"
PROMISES, FUNCTIONS, SIGNED = ["tests/promises.py"], ["tests/functions.py", "check"], ["tools/letter.py", "check"]
RULES, LAYOUT, NUMBERS = ["tests/house.py"], ["tests/tables.py"], ["tests/sections.py"]
TABLES, SECTIONS, LIMITS = "docs/TABLES.md", "crates/repository/specs/Sections.antt", "crates/model/specs/Limits.antt"
EDITS, TIMED, TIMES = ["tests/edits.py", "before"], ["tests/times.py", "check"], "docs/CHECK-TIMES.md"
WORKERS = 2
room, touched = None, {}


def read(path):
    with open(os.path.join(room, path), encoding="utf-8") as f:
        return f.read()


def write(path, text):
    """Writes a file of the copy; what it was is kept, to be put back."""
    if path not in touched:
        touched[path] = read(path) if os.path.exists(os.path.join(room, path)) else None
    with open(os.path.join(room, path), "w", encoding="utf-8") as f:
        f.write(text)


def put_back():
    for path, text in touched.items():
        if text is None:
            os.remove(os.path.join(room, path))
        else:
            write(path, text)
    touched.clear()


def sub(path, old, new):
    text = read(path)
    if old not in text:
        raise SystemExit(f"tests/mutations.py: {path} has no longer: {old}")
    write(path, text.replace(old, new, 1))


def row(number):
    found = re.search(rf"^\| {re.escape(number)} \| .*$", read(PAGE), re.M)
    if not found:
        raise SystemExit(f"tests/mutations.py: there is no row {number}")
    return found.group(0)


def with_cell(number, at, new):
    """The row with another text in one cell: 1 the sentence, 2 what says it, 3 the edits, 4 the wrong program."""
    cells = row(number).strip().strip("|").strip().split(" | ")
    cells[at] = new(cells[at]) if callable(new) else new
    return "| " + " | ".join(cells) + " |"


def set_cell(number, at, new):
    sub(PAGE, row(number), with_cell(number, at, new))


def cell(number, at):
    return row(number).strip().strip("|").strip().split(" | ")[at]


def exchange(one, other, at):
    a, b = cell(one, at), cell(other, at)
    set_cell(one, at, b)
    set_cell(other, at, a)


def entry(number):
    """The lines of a row in tests/sentences.txt."""
    return re.search(rf"^{re.escape(number)} .*\n(?:    .*\n)*", read(LIST), re.M).group(0)


def without_citation(number, name):
    """The row, and its line in tests/sentences.txt, without one name."""
    set_cell(number, 2, lambda c: re.sub(rf"(, )?\[`{name}`\]\([^)]*\)", "", c))
    write(LIST, "".join(re.sub(rf"(, {name}|{name}, )(?![\w-])", "", l) for l in read(LIST).splitlines(True)))


def block_of(name):
    found = re.search(rf'^<a id="[^"]*"></a>\[`[^`]+`\]\([^)]*\) `{name}`\n\n```text\n(?:(?!```).*\n)*```\n', read(COPIES), re.M)
    return found.group(0)


def edit_changed(number, change):
    """Changes the text of the first edit that a row names: a file, or a part of one."""

    def damage():
        crate, name = re.findall(r"`([^`]+)`", cell(number, 3))[0].split("/")
        path = f"crates/{crate}/must-fail/{name}.edit"
        if os.path.exists(os.path.join(room, path)):
            write(path, change(read(path)))
            return
        for path in glob.glob(os.path.join(room, "crates", crate, "must-fail/*.edit")):
            path = os.path.relpath(path, room)
            found = re.search(rf"^part: {name}\n((?:(?!part: ).*\n)*)", read(path), re.M)
            if found:
                write(path, read(path)[: found.start(1)] + change(found.group(1)) + read(path)[found.end(1) :])
                return
        raise SystemExit(f"tests/mutations.py: there is no edit {crate}/{name}")

    return damage


def theorem_gone(file, name):
    text = read(file)
    found = re.search(rf"^( *)pub {name} :.*\n(?:\1 +.*\n)*(?:\1(?:unfolding|{name}) .*\n(?:\1 +.*\n)*)*", text, re.M)
    write(file, text.replace(found.group(0), ""))


def head_of(file, name):
    text = read(file)
    start = re.search(rf"^pub (?:extern \"C\" )?fn {name}\(", text, re.M).start()
    return text[start : text.index("\n{\n", start)]


def added(file, code):
    return lambda: write(file, read(file) + "\n" + code)


def listed(table, name, reason):
    return lambda: sub(LISTS, f"\n{table} = {{", f'\n{table} = {{\n    "{name}": "{reason}",\n')


LIB, PROMISED = "crates/allocator/src/lib.rt", "crates/raptor/proofs/Promises.antt"


def dropped_clause():
    """A function that may write a slice and says two things, without the one about the slice."""
    head = head_of("crates/kiosk_c/src/legs.rt", "kiosk_read")
    sub("crates/kiosk_c/src/legs.rt", head, re.sub(r"\n    ensures \w* ?\{ told\.new .*? \}", "", head, flags=re.S))


def checked_says(new):
    """The check of the tables with another statement of its result."""

    def damage():
        head = head_of("crates/check_tables/src/lib.rt", "check")
        sub("crates/check_tables/src/lib.rt", head, re.sub(r"\{ (number_given result ≡ .*?) \}", lambda m: f"{{ {new.replace('SAID', m.group(1))} }}", head))

    return damage


def state_only():
    """The search with nothing said of what stands beside the state."""
    head = head_of("crates/raptor_rounds/src/lib.rt", "search")
    sub("crates/raptor_rounds/src/lib.rt", head, re.sub(r"\n    ensures \w* ?\{ (?:Usable|Tidy) .*? \}", "", head, flags=re.S))


def nothing_of_the_result():
    head = head_of("crates/check_tables/src/lib.rt", "check")
    sub("crates/check_tables/src/lib.rt", head, re.sub(r"\{ number_given result ≡ .*? \}", "{ 0 ≡ 0 }", head))


def sentence_and_row_gone():
    sub(PAGE, row("1.7") + "\n", "")
    sub(LIST, entry("1.7"), "")


def sentence_changed():
    words = "On 0 bytes past the journey stay unchanged."
    set_cell("1.7", 1, lambda c: c.replace(words, "On 0 bytes past the journey may change."))
    sub(LIST, words, "On 0 bytes past the journey may change.")


def definition_only():
    set_cell("1.4", 2, "`model/specs/Answer.antt` `given`")
    sub(LIST, entry("1.4"), re.sub(r"    says .*", "    says model/specs/Answer.antt given", entry("1.4")))


def theorem_and_block_gone():
    theorem_gone(PROMISED, "chosen_round")
    sub(COPIES, block_of("chosen_round"), "")
    set_cell("3.8", 2, lambda c: re.sub(r", \[`chosen_round`\]\([^)]*\)", "", c))


def row_without_its_only_theorem():
    theorem_gone(PROMISED, "past_unchanged")
    sub(COPIES, block_of("past_unchanged"), "")
    set_cell("1.7", 2, "the code")
    sub(LIST, entry("1.7"), re.sub(r"    says .*\n", "", entry("1.7")))


def new_hypothesis():
    sub(PROMISED, "pub tables_refused : (k : ℕ)", "pub tables_refused : Accepted t → (k : ℕ)")


def witness_that_is_none():
    supposed = next(l for l in read(PAGE).split("\n") if l.startswith("| `Sound`"))
    sub(PAGE, supposed, supposed[: supposed.rindex(" | ")] + " | `repository/proofs/Sound.antt` `accepted_sound` |")


def witness_row_gone():
    sub(PAGE, next(l for l in read(PAGE).split("\n") if l.startswith("| `Fair`")) + "\n", "")


def believed_unlisted():
    file = "crates/model/specs/Spans.antt"
    sub(file, "\nuse ", "\nuse Rattle.repository.specs.Rows.{word}\nuse ")


def first_line_gone():
    file = "crates/journey/specs/Parts.antt"
    write(file, read(file).split("\n", 1)[1])


def part_added(file, old, new):
    """One more part of an edit of `shared`."""
    path = "crates/shared/must-fail/parts.edit"
    return lambda: write(path, read(path) + f"part: one_more\nfile: {file}\nold: {old}\nnew: {new}\n")


# what is done; whether the pages are made anew after it; the test that must complain; what it must say
MUTATIONS = [
    ("a public function that returns a slice and states nothing", added(LIB, "pub fn part(words: &[u32]) -> &[u32] {\n    words\n}\n"), True, FUNCTIONS, "allocator::part states nothing"),
    ("a public function that returns an array and states nothing", added(LIB, "pub fn pair() -> [u32; 2] {\n    [0, 0]\n}\n"), True, FUNCTIONS, "allocator::pair states nothing"),
    ("a public method that states nothing", added(LIB, "impl Offer {\n    pub fn first(&self) -> u32 {\n        0\n    }\n}\n"), True, FUNCTIONS, "allocator::Offer::first states nothing"),
    ("a trait's method that no page lists", added(LIB, "impl fmt::Display for Offer {\n    fn fmt<W: fmt::Write>(&self, f: &mut fmt::Formatter<W>) -> fmt::Result {\n        write!(f, \"offer\")\n    }\n}\n"), True, FUNCTIONS, "allocator::OfferDisplay::fmt states nothing"),
    ("one of a trait with a law, and no law", lambda: sub("crates/gtfs_read/src/lib.rt", "    ghost from_gives = { λ file number. number ≡ file_number file };\n", ""), True, FUNCTIONS, "gtfs_read::U32FromFile::from states nothing"),
    ("one whose law bounds its result", lambda: sub("crates/gtfs_read/src/lib.rt", "number ≡ file_number file", "number ≤ file_number file"), True, FUNCTIONS, "gtfs_read::U32FromFile::from leaves open its result"),
    ("one whose law does not say where it goes on", lambda: sub("crates/print/specs/Whole.antt", " × (s.rest.now ≡ bytes_behind r.rest.now given)", ""), True, FUNCTIONS, "print::WholeLegsIterator::next does not say what it leaves in self"),
    ("one in a module that is called as tests are", lambda: sub("crates/input/src/lib.rt", "#[cfg(test)]\nmod tests;", "mod tests;"), True, FUNCTIONS, "input::tests::HaltingRead::read states nothing"),
    ("a method of a trait left off the page", lambda: write("docs/FUNCTIONS.md", re.sub(r"^\| `telling::StayDisplay::fmt`.*\n", "", read("docs/FUNCTIONS.md"), flags=re.M)), False, FUNCTIONS, "is not what tests/functions.py writes"),
    ("a public function for C that states nothing", added("crates/kiosk_c/src/lib.rt", '#[unsafe(no_mangle)]\npub extern "C" fn kiosk_more() -> u32 {\n    0\n}\n'), True, FUNCTIONS, "kiosk_c::kiosk_more states nothing"),
    *(
        (f"one in {where}", added(f"crates/{where.replace('::', '/src/', 1)}.rt", "pub fn more() -> u32 {\n    0\n}\n"), True, FUNCTIONS, f"{where.removesuffix('::lib')}::more states nothing")
        for where in ("asking::lib", "print::lib", "lines::lib", "replay::probe", "refusing::meant")
    ),
    ("a slice that may be written, and nothing said of it", dropped_clause, True, FUNCTIONS, "kiosk_read does not say what it leaves in told"),
    ("a result of which only a bound is said", checked_says("number_given result ≤ 5"), True, FUNCTIONS, "check_tables::check leaves open its result"),
    ("a result that is said only on a condition", checked_says("number_given result ≡ 0 → SAID"), True, FUNCTIONS, "check_tables::check leaves open its result"),
    ("a workspace of which only the state is said", state_only, True, FUNCTIONS, "raptor_rounds::search leaves open its result, what it leaves in words, what it leaves in marks"),
    ("an operation that is told by what it leaves", lambda: sub(LIB, "Becomes (swapped self.old.stops)", "Becomes (λ _. state self.new)"), True, FUNCTIONS, "allocator::Workspace::swap_labels leaves open what it leaves in self"),
    ("a workspace of which nobody says over what it lies", lambda: sub(LIB, "\n        ensures over { Over words.entry marks.entry stops routes result }", ""), True, FUNCTIONS, "allocator::Workspace::new does not say what it leaves in words, what it leaves in marks"),
    ("the law of a workspace's operations that is gone", lambda: sub("crates/allocator/proofs/Unique.antt", "pub becomes_unique :", "pub becomes_twice :"), True, FUNCTIONS, "allocator::Workspace::start leaves open what it leaves in self"),
    ("a result that is said to be itself", checked_says("number_given result ≡ number_given result"), True, FUNCTIONS, "check_tables::check leaves open its result"),
    ("a result of which nothing is said", nothing_of_the_result, True, FUNCTIONS, "check_tables::check does not say its result"),
    ("an exception that has an equation", listed("LESS", "shared::time_to_walk", "less"), True, FUNCTIONS, "take it off the list"),
    ("an exception that is said to print and does not", listed("OUTSIDE", "shared::time_to_walk", "prints"), True, FUNCTIONS, "nothing that it calls does"),
    ("an exception that is no function", listed("OPEN", "shared::time_to_fly", "open"), True, FUNCTIONS, "there is no function shared::time_to_fly"),
    ("a law of a function's own that is gone", lambda: sub("crates/csv_text/proofs/Stepping.antt", "pub line_once :", "pub line_twice :"), True, FUNCTIONS, "csv_text::line leaves open its result"),
    ("a law of its own for a function that needs none", lambda: sub(LISTS, "\nOWN = {", '\nOWN = {\n    "shared::time_to_walk": ("csv_text/proofs/Parts.antt", "part_ends"),\n'), True, FUNCTIONS, "shared::time_to_walk is listed in OWN"),
    ("an export with a clause of its own", lambda: sub("crates/kiosk_export/src/lib.rt", "{ result ≡ check_of tables.now }", "{ result ≡ check_of [] }"), True, FUNCTIONS, "kiosk_export::kiosk_check has not the parameters and clauses of kiosk_c::kiosk_check"),
    ("an export that is left out", lambda: sub("crates/gtfs_c/src/lib.rt", "pub fn kiosk_gtfs_read(", "pub fn kiosk_gtfs_read_both("), True, FUNCTIONS, "gtfs_export and gtfs_c do not both have kiosk_gtfs_read"),
    ("the page of functions changed by hand", lambda: sub("docs/FUNCTIONS.md", "| equation |", "| equations |"), False, FUNCTIONS, "is not what tests/functions.py writes"),
    ("a statement changed, and the page of functions not", checked_says("number_given result ≡ check_of []"), False, FUNCTIONS, "is not what tests/functions.py writes"),
    ("a parameter called as a clause calls what is given back", added(LIB, "pub fn more(result: u32) -> u32\n    ensures { result ≡ result }\n{\n    result\n}\n"), True, FUNCTIONS, "allocator::more calls a parameter `result`"),
    ("what two rows cite exchanged", lambda: exchange("1.4", "1.7", 2), True, PROMISES, "row 1.4 does not have"),
    ("what two rows of one file cite exchanged", lambda: exchange("3.1", "3.2", 2), True, PROMISES, "row 3.2 does not have"),
    ("what two parts cite exchanged", lambda: exchange("8.3", "8.4", 2), True, PROMISES, "row 8.3 does not have"),
    ("the edits of two rows exchanged", lambda: exchange("1.2", "1.4", 3), True, PROMISES, "row 1.4 does not have edit"),
    ("a row without an edit", lambda: (set_cell("1.9", 3, ""), sub(LIST, entry("1.9"), re.sub(r"    edits .*\n", "", entry("1.9")))), True, PROMISES, "1.9 has no edit"),
    ("a row with a definition only", definition_only, True, PROMISES, "1.4 has no theorem and no contract"),
    ("a row with no wrong program", lambda: set_cell("1.9", 4, ""), True, PROMISES, "1.9 names no wrong program"),
    ("an emptied edit", edit_changed("1.9", lambda text: ""), True, PROMISES, "it replaces nothing"),
    ("an edit without its new text", edit_changed("1.9", lambda text: re.sub(r"^new:.*\n", "", text, flags=re.M)), True, PROMISES, "it replaces nothing"),
    ("an edit that changes nothing", edit_changed("1.9", lambda text: re.sub(r"^old: (.*)\nnew: .*$", r"old: \1\nnew: \1", text, flags=re.M)), True, PROMISES, "it replaces a text by itself"),
    ("an edit of what is not there", edit_changed("1.9", lambda text: re.sub(r"^old: ", "old: nowhere ", text, flags=re.M)), True, PROMISES, "its old text does not stand in"),
    ("an edit of a proof", edit_changed("1.9", lambda text: re.sub(r"^file: \w+/", "file: proofs/", text, flags=re.M)), True, PROMISES, "which is no code and no definition"),
    ("an edit gone", lambda: set_cell("1.9", 3, lambda c: c.replace("`model/", "`model/no_")), True, PROMISES, "no edit model/no_"),
    ("a theorem deleted together with its block", theorem_and_block_gone, True, PROMISES, "row 3.8 does not have raptor/proofs/Promises.antt chosen_round"),
    ("a theorem deleted with all that names it", row_without_its_only_theorem, True, PROMISES, "1.7 has no theorem and no contract"),
    ("a theorem deleted and its block kept", lambda: theorem_gone(PROMISED, "past_unchanged"), True, PROMISES, "nothing to copy for"),
    ("a sentence dropped with its row", sentence_and_row_gone, True, PROMISES, "the sentences are not those that were agreed"),
    ("a sentence changed with its row", sentence_changed, True, PROMISES, "the sentences are not those that were agreed"),
    ("a row that nobody wanted", lambda: sub(PAGE, row("1.9"), row("1.9") + "\n" + row("1.9").replace("| 1.9 |", "| 1.19 |")), True, PROMISES, "row 1.19 stands in no line"),
    ("a name that is only text in its file", lambda: set_cell("1.4", 2, lambda c: c + ", `unfolding`"), True, PROMISES, "unfolding is no theorem, contract or definition"),
    ("a private name", lambda: set_cell("1.4", 2, lambda c: c + ", `kept_journey`"), True, PROMISES, "kept_journey is no theorem, contract or definition"),
    ("a name of another file", lambda: set_cell("1.3", 2, lambda c: c + "; `raptor/src/lib.rt` `kiosk_solve`"), True, PROMISES, "kiosk_solve is no theorem, contract or definition"),
    ("a file that is not there", lambda: set_cell("1.3", 2, lambda c: c + "; `raptor/src/lip.rt`"), True, PROMISES, "no file raptor/src/lip.rt"),
    ("a copy changed by hand", lambda: sub(COPIES, "drop f.length after.journey ≡ drop f.length before.journey", "drop f.length after.journey ≡ before.journey"), False, PROMISES, "the copy of past_unchanged is not the text"),
    ("a statement changed, and its copy not", lambda: sub(PROMISED, "pub past_unchanged : drop f.length after.journey ≡ drop f.length before.journey", "pub past_unchanged : f.length ≡ f.length"), False, PROMISES, "the copy of past_unchanged is not the text"),
    ("a copy that does not say of what", lambda: sub(COPIES, block_of("past_unchanged"), block_of("past_unchanged").split("\n\n", 1)[1]), False, PROMISES, "do not say which statement they copy"),
    ("a link that leads elsewhere", lambda: set_cell("1.7", 2, lambda c: c.replace("#raptor-Promises-past_unchanged", "#raptor-Promises-any_order")), False, PROMISES, "past_unchanged does not lead to its statement"),
    ("a statement without its anchor", lambda: sub(COPIES, 'id="raptor-Promises-past_unchanged"', 'id="past_unchanged"'), False, PROMISES, "past_unchanged does not lead to its statement"),
    ("a new hypothesis of a theorem", new_hypothesis, True, PROMISES, "tables_refused supposes Accepted, and no witness is named"),
    ("a witness that supposes something itself", witness_that_is_none, True, PROMISES, "accepted_sound is no witness"),
    ("a hypothesis that nobody witnesses", witness_row_gone, True, PROMISES, "supposes Fair, and no witness is named"),
    ("files that are said to be read so, and are not shown", lambda: write(PAGE, re.sub(r"^\| `AllTaken`.*\n", "", read(PAGE), flags=re.M)), True, PROMISES, "taken_answered supposes AllTaken, and no witness is named"),
    ("a line more to be believed", lambda: sub("crates/model/specs/Spans.antt", "\nuse ", "\n-- one line more\nuse "), False, PROMISES, "what must be believed is not what is counted"),
    ("an arrival query's footpaths that nobody lists both ways", lambda: write(PAGE, re.sub(r"^\| `Ways`.*\n", "", read(PAGE), flags=re.M)), True, PROMISES, "found_gets_yes supposes Ways, and no witness is named"),
    ("a sentence of request 2 that is passed over", lambda: sub(LIST, "10.6 No legs is a no.", "10.6 No legs is a yes."), True, PROMISES, "the sentences are not those that were agreed"),
    ("a sentence of request 3 that is passed over", lambda: sub(LIST, "11.1 Write each leg once.", "11.1 Write each leg."), True, PROMISES, "the sentences are not those that were agreed"),
    ("a leg that may be put past the buffer", lambda: write(PAGE, re.sub(r"^\| `InBuffer`.*\n", "", read(PAGE), flags=re.M)), True, PROMISES, "uncounted_stays supposes InBuffer, and no witness is named"),
    ("a line more to be believed for a request", lambda: sub("crates/feed/specs/Refused.antt", "\nuse ", "\n-- one line more\nuse "), False, PROMISES, "what must be believed is not what is counted"),
    ("a file more to be believed", believed_unlisted, False, PROMISES, "what must be believed is not what is counted"),
    ("more taken from the kit", lambda: sub("crates/model/specs/Spans.antt", "\nuse ", "\nuse Rattle.std.specs.Perm.{perm}\nuse "), False, PROMISES, "what is taken from the kit"),
    ("a crate that the map leaves out", lambda: sub("README.md", "| `marks` |", "| marks |"), False, PROMISES, "the map leaves out marks"),
    ("two parts of an edit that change one function", part_added("src/lib.rt", "bits % 0x8000_0000", "bits % 0x8000_0001"), False, EDITS, "one_more changes the same"),
    ("a part that changes what the others speak of", part_added("specs/Walk.antt", "zero = ", "zero = suc "), False, EDITS, "it cannot be refused by itself"),
    ("a part that changes a type", part_added("src/lib.rt", "pub struct Time(pub u32);", "pub struct Time(pub u64);"), False, EDITS, "it changes more than"),
    ("a crate in which a type is spoken of by name, and no part needs it", lambda: sub("tests/speaks.py", "\nBY_NAME = {", '\nBY_NAME = {\n    "marks": "as one likes",'), False, EDITS, "marks is in BY_NAME"),
    ("a third file of edits", lambda: write("crates/marks/must-fail/third.edit", read("crates/marks/must-fail/skips_a_word.edit")), False, TIMED, "marks has 3 files of edits"),
    ("a crate that takes too long", lambda: write(TIMES, re.sub(r"^\| marks \| \d+ ", "| marks | 99 ", read(TIMES), flags=re.M)), False, TIMED, "marks takes 99 seconds"),
    ("a machine that is twice as fast", lambda: write(TIMES, re.sub(r"which takes [\d.]+ times as long", "which takes 0.50 times as long", read(TIMES))), False, TIMED, "and may take"),
    ("a page that does not tell its machine", lambda: sub(TIMES, "times as long as that of the", "times as long as that in the"), False, TIMED, "it does not say how long its machine takes"),
    ("more minutes than the gate may take", lambda: write(TIMES, re.sub(r"may take \*\*\d+", "may take **9", read(TIMES))), False, TIMED, "and may take 9"),
    ("code changed after the letter was filled in", lambda: sub(LIB, "\n}\n", "\n}\n\n"), True, SIGNED, "the sum of the text is not this tree's"),
    ("a proof more after the letter was filled in", lambda: write("crates/model/proofs/More.antt", "-- one more\n"), True, SIGNED, "the sum of the text is not this tree's"),
    ("a letter without its archive's sum", lambda: write(LETTER, re.sub(r"(libkiosk_c\.a` \| `)[0-9a-f]+", r"\1", read(LETTER))), True, SIGNED, "it does not name the sum of the library"),
    ("a letter with another count of what must be read", lambda: write(LETTER, re.sub(r"\d+ files, ", "9 files, ", read(LETTER))), True, SIGNED, "our definitions are"),
    ("a letter with a word of ours", lambda: sub(LETTER, "## Left out\n", "## Left out\n\nThe buffer.\n"), True, SIGNED, "a word that it does not explain: buffer"),
    ("a letter with a number that nobody counted", lambda: sub(LETTER, "2,156,976", "2,156,979"), True, SIGNED, "a number that docs/DIFFERENCES.md does not have"),
    ("a section under another number", lambda: sub(TABLES, "| 5 | `CALLS` |", "| 5 | `SERVED` |"), False, LAYOUT, "section 5 is CALLS, not SERVED"),
    ("a section renamed, and its page not", lambda: sub(SECTIONS, "abbrev pub SERVED : ℕ\nSERVED =", "abbrev pub PASSED : ℕ\nPASSED ="), False, LAYOUT, "section 6 is PASSED, not SERVED"),
    ("a row one word wider, and its page not", lambda: sub(SECTIONS, "TRANSFER_WORDS = 4", "TRANSFER_WORDS = 5"), False, LAYOUT, "TRANSFERS has `rows of 5` words"),
    ("a row of which a word is not told", lambda: sub(TABLES, "the stop that it leaves, the stop that it leads to, its stated span or MAX, its metres", "the stop that it leads to, its stated span or MAX, its metres"), False, LAYOUT, "a row of TRANSFERS has 4 words, and 3 are named"),
    ("a section more, and its page not", lambda: (sub(SECTIONS, "SECTIONS = 20", "SECTIONS = 21"), sub(SECTIONS, "HEADER = 21", "HEADER = 22")), False, LAYOUT, "it does not list 21 sections"),
    ("a header that is too long for its sections", lambda: sub(SECTIONS, "HEADER = 21", "HEADER = 22"), False, LAYOUT, "a header of 22 words does not say"),
    ("a section of another length", lambda: sub(TABLES, "| `SERVED` | S |", "| `SERVED` | S + 1 |"), False, LAYOUT, "SERVED has `S` words"),
    ("rows for each trip, and no number of them", lambda: sub(TABLES, "| `STANDING` | 2 * T |", "| `STANDING` | rows of 2 |"), False, LAYOUT, "STANDING has `2 * T` words"),
    ("a place that is not told", lambda: sub(TABLES, "the route that the trip stands in, its place among `ROUTE_TRIPS`", "the route that the trip stands in"), False, LAYOUT, "a row of STANDING has 2 words, and 1 are named"),
    ("a trip of N at another place", lambda: sub(TABLES, "| 0 0, 0 1, 1 2, 1 3 |", "| 0 0, 0 1, 1 3, 1 2 |"), False, LAYOUT, "N's words are not what tools/timetable.py makes"),
    ("the layout's number of before", lambda: sub(TABLES, "that is behind the header: 21.", "that is behind the header: 20."), False, LAYOUT, "it does not say: that is behind the header: 21."),
    ("the starts of another list", lambda: sub(TABLES, "starts of `CHILDREN`, by stop", "starts of `CHILDREN`, by route"), False, LAYOUT, "CHILD_STARTS has the starts of CHILDREN, by stop"),
    ("a section with another number in code", lambda: sub("crates/repository/src/sections.rt", "pub const WALKS: usize = 10;", "pub const WALKS: usize = 11;"), False, NUMBERS, "WALKS is 10, and in"),
    ("a section's number in code", added("crates/repository/src/calls.rt", "fn more(tables: &[u32]) -> u32 {\n    word(tables, 7, 0)\n}\n"), False, NUMBERS, "word(tables, 7,"),
    ("a section's number in a proof", added("crates/repository/proofs/Stops.antt", "more : (w : List ℕ) → sec w 7 0 ≡ sec w 7 0\nmore w = refl\n"), False, NUMBERS, "sec .. 7"),
    ("a limit raised, and its page not", lambda: sub(LIMITS, "MOST_TRIPS = 16_384", "MOST_TRIPS = 16_448"), False, LAYOUT, "MOST_TRIPS is 16448 in"),
    ("a limit that the page leaves out", added(LIMITS, "abbrev pub MOST_TRAMS : ℕ\nMOST_TRAMS = 7\n"), False, LAYOUT, "MOST_TRAMS is 7 in"),
    ("a limit of the tool raised alone", lambda: sub("tools/timetable.py", "16384, 262144,", "16448, 262144,"), False, LAYOUT, "TRIPS is 16448, and MOST_TRIPS"),
    ("a rule that the page leaves out", lambda: sub("crates/repository/specs/Listed.antt", "&& areas_listed w", "&& areas_listed w && more w"), False, LAYOUT, "its rules are not the tests of the check: [(2, 'more')]"),
    ("a rule under another number", lambda: sub(TABLES, "| 4 | \"At each", "| 3 | \"At each"), False, LAYOUT, "its rules are not the tests of the check"),
    ("a rule in words that nobody wrote", lambda: sub(TABLES, "equality is allowed.", "equality is refused."), False, LAYOUT, "the definitions do not quote"),
    ("a word of N changed", lambda: sub(TABLES, "| 2 3 30 0 |", "| 2 3 31 0 |"), False, LAYOUT, "N's words are not what tools/timetable.py makes"),
    ("a word of N changed in the program", lambda: sub("crates/network/src/words.rt", "    30, 0, 0,", "    31, 0, 0,"), False, LAYOUT, "words.rt: its words of N are not those of the page"),
    ("a place of N's words changed", lambda: sub(TABLES, "| 58 to 62 |", "| 58 to 63 |"), False, LAYOUT, "the words of SERVED are 58 to 62"),
    ("a law among the definitions", added("crates/model/specs/Spans.antt", "pub more : 0 ≡ 0\nmore = refl\n"), False, RULES, "more is a law or a text that stays shut"),
    ("a private law among the definitions", added("crates/model/specs/Spans.antt", "more : 0 ≡ 0\nmore = refl\n"), False, RULES, "more is a law or a text that stays shut"),
    ("a proof that is called a definition", added("crates/model/specs/Spans.antt", "unfoldable pub more : (n : ℕ) → n ≡ n\nmore n = refl\n"), False, RULES, "more is a law or a text that stays shut"),
    ("a definition that cites a proof", lambda: sub("crates/model/specs/Spans.antt", "\nuse ", "\nuse Rattle.model.proofs.Better.{better_strict}\nuse "), False, RULES, "a definition cites a proof: Rattle.model.proofs.Better"),
    ("a contract that cites a proof", lambda: sub("crates/marks/src/lib.rt", "\nghost use ", "\nghost use Rattle.marks.proofs.Laws.{none_left};\nghost use "), False, RULES, "a contract cites a proof: Rattle.marks.proofs.Laws"),
    ("a wide line of code", added("crates/marks/src/lib.rt", "// " + "wide " * 30 + "\n"), False, RULES, "characters, and 140 are the most"),
    ("a wide attribute with code behind it", lambda: sub("crates/kiosk_c/src/legs.rt", "#[tactic(auto, using(crate::proofs::Reading::first), unfolding(", "#[tactic(auto)] const MORE: u32 = 0; #[tactic(auto, using(crate::proofs::Reading::first), unfolding("), False, RULES, "characters, and 140 are the most"),
    ("a wide attribute more", added("crates/marks/src/lib.rt", "#[tactic(auto, unfolding(" + "crate::specs::Marks::marked, " * 6 + "))]\nfn more() {}\n"), False, RULES, "crates/marks/src/lib.rt, line"),
    ("a function of eight parameters", added("crates/marks/src/lib.rt", "fn more(a: u8, b: u8, c: u8, d: u8, e: u8, f: u8, g: u8, h: u8) {}\n"), False, RULES, "marks::more takes 8 parameters"),
    ("an exception for a function of few parameters", lambda: sub("docs/DECISIONS.md", "`kiosk_words::query_of`", "`kiosk_words::query_of`, `kiosk_words::tell`"), False, RULES, "kiosk_words::tell takes no more than 7 parameters"),
    ("a file that does not say its subject", first_line_gone, False, RULES, "crates/journey/specs/Parts.antt: its first line does not say"),
    ("a script that does not say its subject", lambda: write("tests/more.py", "import os\n"), False, RULES, "tests/more.py: its first line does not say"),
    ("a name that two definitions have", added("crates/journey/specs/Legs.antt", "unfoldable pub leg_size : ℕ → ℕ\nleg_size n = n\n"), False, RULES, "both define leg_size"),
    ("a third definition of a name that two share", added("crates/journey/specs/Parts.antt", "pub record Chosen : Type 0 where\n  pub one : ℕ\n"), False, RULES, "both define Chosen"),
    ("a file that cites two definitions of one name", lambda: sub("crates/raptor_reply/specs/Chosen.antt", "\nuse ", "\nuse Rattle.model.specs.Choosing.{Chosen as Routes}\nuse "), False, RULES, "it cites two definitions of Chosen"),
    ("a law that nobody cites", added("crates/marks/proofs/Laws.antt", "pub no_one_asks : 0 ≡ 0\nno_one_asks = refl\n"), False, RULES, "nothing reaches no_one_asks"),
    ("a law that nobody cites, called as one that went is on the page of those", added("crates/marks/proofs/Laws.antt", "pub fault_timed : 0 ≡ 0\nfault_timed = refl\n"), False, RULES, "nothing reaches fault_timed"),
    ("a law that nobody cites, in a file that is called as answers are", added("crates/model/proofs/Answers.antt", "pub no_one_asks : 0 ≡ 0\nno_one_asks = refl\n"), False, RULES, "nothing reaches no_one_asks"),
    ("a definition that cites a law of the kit", added("crates/marks/specs/Marks.antt", "use Rattle.std.proofs.Common.{add_comm}\n"), False, RULES, "a definition cites a proof: Rattle.std.proofs.Common"),
    ("two laws that cite only each other", added("crates/marks/proofs/Laws.antt", "island : 0 ≡ 0\nisland = strand\n\nstrand : 0 ≡ 0\nstrand = island\n"), False, RULES, "nothing reaches strand"),
    ("a definition that nobody cites", added("crates/marks/specs/Marks.antt", "unfoldable pub idle_mark : ℕ → ℕ\nidle_mark n = n\n"), False, RULES, "nothing reaches idle_mark"),
    ("a page that is not there", lambda: sub("docs/TABLES.md", "](PROMISES.md)", "](PROMISED.md)"), False, RULES, "a link leads nowhere: PROMISED.md"),
    ("a place of a page that is not there", lambda: sub("docs/TABLES.md", "](DECISIONS.md#the-tables)", "](DECISIONS.md#the-chairs)"), False, RULES, "a link leads to no place of docs/DECISIONS.md"),
    ("a page that is named and not linked", lambda: write("docs/TABLES.md", read("docs/TABLES.md") + "\nSee BENCHMARKS.md.\n"), False, RULES, "BENCHMARKS.md is named and not linked"),
    ("a page that README does not lead to", lambda: write("docs/MORE.md", "# More\n\n[README.md](../README.md)\n"), False, RULES, "it does not lead to docs/MORE.md"),
    ("a crate that the drawing has not", lambda: sub("crates.txt", "\nmarks: base\n", "\nmarks: base\nmore: marks\n"), False, RULES, "its drawing is not crates.txt"),
    ("a crate on another floor", lambda: sub("crates.txt", "\nmarks: base\n", "\nmarks: base shared\n"), False, RULES, "its drawing is not crates.txt"),
    ("a letter of two pages", lambda: write(LETTER, read(LETTER) + "\nMore.\n" * 30), True, SIGNED, "it is longer than a page"),
]


def run(*words):
    done = subprocess.run([sys.executable, *words], cwd=room, stdout=subprocess.PIPE, stderr=subprocess.STDOUT, text=True)
    return done.returncode, done.stdout


def try_some(ways):
    """Tries some of the ways in a copy of the tree, without what is built; what was not noticed."""
    global room
    missed, room = [], os.path.join(tempfile.mkdtemp(), "tree")
    try:
        shutil.copytree(HERE, room, ignore=shutil.ignore_patterns("target", "out", ".git", "__pycache__"))
        for at in ways:
            what, damage, anew, test, wanted = MUTATIONS[at]
            damage()
            if anew and test is not SIGNED:
                for page in (PAGE, COPIES, LIST, "docs/FUNCTIONS.md"):
                    write(page, read(page))
                run("tests/functions.py") if test is FUNCTIONS else run("tests/promises.py", "write")
            status, said = run(*test)
            if status != 1 or "Traceback" in said or wanted not in said:
                missed.append(f"not noticed: {what}\n{said}")
            put_back()
        if 0 in ways:  # the tree as it is passes
            missed += [f"with nothing damaged, {words[0]} says\n{said}" for words in (PROMISES, FUNCTIONS, EDITS, TIMED, SIGNED, RULES, LAYOUT, NUMBERS) for status, said in [run(*words)] if status != 0]
    finally:
        shutil.rmtree(os.path.dirname(room))
    return missed


if __name__ == "__main__":
    with concurrent.futures.ProcessPoolExecutor(WORKERS) as pool:
        missed = sum(pool.map(try_some, [range(w, len(MUTATIONS), WORKERS) for w in range(WORKERS)]), [])
    print("\n".join(missed) if missed else f"{len(MUTATIONS)} ways to damage the tree, each noticed")
    sys.exit(len(missed) > 0)
