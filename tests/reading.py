# How the tests read the tree: a theorem's or a definition's statement, a function's contract, an edit's replacements. Text only: nothing is proved here.
import functools, glob, os, re

HERE = os.path.abspath(os.path.join(os.path.dirname(os.path.abspath(__file__)), ".."))


@functools.cache
def text_of(path):
    with open(os.path.join(HERE, path), encoding="utf-8") as f:
        return f.read()


def there(path):
    return os.path.isfile(os.path.join(HERE, path))


def indent(line):
    return len(line) - len(line.lstrip())


def to_end(lines, at):
    """The line at `at` and those below it that stand further in."""
    end = at + 1
    while end < len(lines) and lines[end].strip() and indent(lines[end]) > indent(lines[at]):
        end += 1
    return lines[at:end]


def to_blank(lines, at):
    """The lines from `at` to the next empty one."""
    end = at
    while end < len(lines) and lines[end].strip():
        end += 1
    return lines[at:end]


def out(lines):
    """The lines without the depth of the first."""
    return [line[indent(lines[0]) :] for line in lines]


def statement(text, name):
    """What a public name of an .antt file is (`theorem`, or `definition`), what the modules around it take, outermost first, and its text: of a theorem
    its type, of a definition all of it. None where the file has no such name."""
    for found in re.finditer(r"pub (record |data )?" + re.escape(name) + r"(?![\w'-])", text):
        before = text[text.rfind("\n", 0, found.start()) + 1 : found.start()].strip()
        if before in ("", "abbrev", "unfoldable"):
            break
    else:
        return None
    lines, at = text.split("\n"), text.count("\n", 0, found.start())
    own = (to_blank if before else to_end)(lines, at)
    around, inner = [], indent(lines[at])
    for up in range(at - 1, -1, -1):
        if inner == 0:
            break
        if lines[up].strip() and indent(lines[up]) < inner:
            inner = indent(lines[up])
            if lines[up].lstrip().startswith("module _"):
                head = [lines[up]]
                while not head[-1].rstrip().endswith("where"):
                    head.append(lines[up + len(head)])
                around.insert(0, "\n".join(out(head)))
    return ("definition" if before or found.group(1) else "theorem"), around, "\n".join(out(own))


def asked_and_said(around, text):
    """A theorem's hypotheses and its conclusion, as text: what stands before the last arrow outside brackets, with what the modules take, and after it."""
    whole = re.sub(r"--[^\n]*", "", text)
    body, depth, cuts = whole[whole.index(" :") + 2 :], 0, [0]
    for at, c in enumerate(body):
        depth += (c in "({") - (c in ")}")
        if c == "→" and depth == 0:
            cuts.append(at + 1)
    return " ".join(around) + " " + body[: cuts[-1]], body[cuts[-1] :]


class Function:
    """A function of a .rt file: its parameters, its result's type, what it asks and what it states, its head and its body as text."""

    def __init__(self, path, text, found):
        self.path, self.name = path, found.group(3)
        inside = list(IMPL.finditer(text, 0, found.start())) if found.group(1) else []
        trait, of, self.kind = inside[-1].groups() if inside else (None, None, "")
        # as the folders of proofs are called: `U32FromFile` for `impl From<File> for u32`, `ClockDisplay` for `impl fmt::Display for Clock`
        self.owner = "".join([self.kind, trait or "", *re.findall(r"\w+", of or "")])
        self.owner = self.owner[:1].upper() + self.owner[1:]
        # whoever has a value of the type calls the methods of its traits, by the trait's name, and no `pub` stands over them
        self.trait, self.public = trait, bool(found.group(2) or trait)
        at = close(text, found.end() - 1, "(", ")") + 1
        self.parameters = text[found.end() : at - 1]
        self.result, self.asks, self.says = "", [], []
        while True:
            rest = re.compile(r"(?:\s|//[^\n]*\n)*").match(text, at)
            at = rest.end()
            clause = re.compile(r"(requires|ensures|decreases)\b\*?\s*(?:\w+\s*)?\{").match(text, at)
            if text.startswith("->", at):
                # an array's length stands behind a `;` of its own
                end = re.compile(r"(?:\[[^\]]*\]|[^\[])*?(?=\s*(?:\b(?:requires|ensures|decreases|where)\b|\{|;))").match(text, at + 2)
                self.result, at = end.group().strip(), end.end()
            elif clause:
                end = close(text, clause.end() - 1, "{", "}")
                said = " ".join(text[clause.end() : end].split())
                {"requires": self.asks, "ensures": self.says}.get(clause.group(1), []).append(said)
                at = end + 1
            else:
                break
        self.head = text[found.start() : at].rstrip()
        self.begins, self.ends = at, close(text, at, "{", "}") + 1 if text.startswith("{", at) else at
        self.body = text[self.begins : self.ends]
        if trait:
            self.says += self.law(text[inside[-1].end() : found.start()])
        crate, module = path.split("/")[1], os.path.basename(path)[:-3]
        self.where = "::".join([crate] + ([module] if module != "lib" else []) + ([self.owner] if self.owner else []) + [self.name])

    def law(self, above):
        """What the trait's law says of a method, `ghost from_gives = { λ e m. m ≡ .. }` over `from`, as a clause would: of `self` as it comes or of the
        first parameter, of the result, and of `self` as it is left."""
        found = re.search(rf"ghost {self.name}_gives = \{{(.*?)\}};", above, re.S)
        if not found:
            return []
        names = re.findall(r"(\w+)\s*:", self.parameters)
        values = ["self.old", *names, "result", "self.new"] if re.match(r"\s*&\s*mut self\b", self.parameters) else [*names, "result"]
        told = re.fullmatch(r"λ ([\w ]+)\. (.*)", " ".join(found.group(1).split()))
        if not told:
            return [" ".join([*found.group(1).split(), *values])]
        return [with_names(told.group(2), dict(zip(told.group(1).split(), values)))]

    def lent(self):
        """The parameters that may be written. One that the result goes on to hold, by its lifetime and by what the contract says, is the result's."""
        found = re.findall(r"(\w+)\s*:\s*&\s*(?:('\w+)\s+)?mut\b", self.parameters)
        said = [clause for clause in self.says if re.search(r"\bresult\b", clause)]
        kept = [n for n, life in found if life and re.search(rf"{life}\b", self.result) and any(re.search(rf"\b{n}\.entry\b", clause) for clause in said)]
        return [n for n, life in found if n not in kept] + (["self"] if re.match(r"\s*&\s*mut self\b", self.parameters) else [])


def close(text, at, opens, closes):
    """Where the bracket that opens at `at` closes."""
    depth = 0
    for i in range(at, len(text)):
        depth += (text[i] == opens) - (text[i] == closes)
        if depth == 0:
            return i
    raise ValueError("a bracket that does not close")


def with_names(text, values):
    """The text with a value in place of each name."""
    return re.sub(r"(?<![\w.'-])\w+(?![\w'-])", lambda m: values.get(m.group(), m.group()), text)


IMPL = re.compile(r"^impl(?:<[^>]*>)? (?:(?:\w+::)*(\w+)(?:<([^>]*)>)? for )?(\w+)", re.M)
HEAD = re.compile(r"^( *)(pub )?(?:extern \"C\" )?fn (\w+)\s*(?:<[^>]*>)?\(", re.M)


@functools.cache
def every_function(path):
    text = text_of(path)
    return [Function(path, text, found) for found in HEAD.finditer(text)]


def functions(path):
    return [f for f in every_function(path) if f.public]


@functools.cache
def source(path, name):
    """What `path` says of `name`: its kind (`theorem`, `contract`, `definition`), what is around it, its text. None where it says nothing."""
    path = f"crates/{path}"
    if not there(path):
        return None
    if path.endswith(".antt"):
        return statement(text_of(path), name)
    for f in every_function(path):
        if f.name == name:
            return ("contract" if f.says else "function"), [], f.head
    return None


@functools.cache
def needs():
    """What each line of crates.txt says that a crate needs."""
    return {name: below.split() for name, below in re.findall(r"^(\w+)(?: +staticlib)? *:(.*)$", text_of("crates.txt"), re.M)}


def crates():
    return list(needs())


def parts_of(text, alone):
    """The parts of an edit's text: of each its name and its replacements (file, old, new). One without a line `part: NAME` is a part itself, named `alone`."""
    found, part, file, old = {}, alone, "", ""
    for line in text.split("\n"):
        if line.startswith("part: "):
            part = line[6:].strip()
            if part in found:
                raise ValueError(f"two parts are {part}")
            found[part] = []
        elif line.startswith("file: "):
            file = line[6:]
        elif line.startswith("old: "):
            old = line[5:]
        elif line.startswith("new:"):
            found.setdefault(part, []).append((file, old, line[4:].removeprefix(" ")))
            old = ""
    return found or {alone: []}


def edits():
    """Each edit that the prover must refuse, by `crate/name`, and what is wrong with its text: it must replace something that stands there by something
    else. A file may hold several (`part: NAME`, tests/edits.py)."""
    found = {}
    for path in sorted(glob.glob(os.path.join(HERE, "crates/*/must-fail/*.edit"))):
        crate = os.path.relpath(path, HERE).split("/")[1]
        for name, pairs in parts_of(text_of(os.path.relpath(path, HERE)), os.path.basename(path)[:-5]).items():
            one = f"{crate}/{name}"
            wrong = "it replaces nothing" if not pairs else next((w for w in map(lambda p: bad_pair(crate, *p), pairs) if w), "")
            found[one] = "two edits have this name" if one in found else wrong
    return found


def bad_pair(crate, file, old, new):
    path = f"crates/{crate}/{file}"
    if not re.match(r"(src|specs)/", file):
        return f"it changes {file or 'no file'}, which is no code and no definition"
    if not there(path):
        return f"there is no {path}"
    if not old.strip() or text_of(path).count(old) != 1:
        return f"its old text does not stand in {path} once"
    return "it replaces a text by itself" if " ".join(old.split()) == " ".join(new.split()) else ""
