#!/usr/bin/env python3
# Turns the walks of an older Rattle, proofs/F/Proof.antt, into invariants and answers, crate by crate: a function's loops go into Invariants.antt, what
# its goals were answered with into Answers.antt under today's names, and an answer that said `search rules` goes, since the check tries that by itself.
#   to_answers.py CRATE     in the repository, after port.py: asks `rt check --generated .. --old-names` for the names
import glob, json, os, re, subprocess, sys, tempfile

HEAD = re.compile(r"^(?:abbrev |pub )*(\S+) : (.*)$")


def norm(name):
    return name.replace("-", "_")


def clauses_of(top):
    """The names of the clauses of each function of the sources, by the function's name: (requires, ensures)."""
    found = {}
    page = subprocess.run(["rt", "doc"], capture_output=True, text=True).stdout.strip()
    kit = os.path.join(os.path.dirname(page), "rattle")
    sources = glob.glob(os.path.join(top, "crates/*/src/**/*.rt"), recursive=True)
    for library in ("core", "std_alloc", "std_io", "std", "io"):
        sources += glob.glob(os.path.join(kit, library, "src/**/*.rt"), recursive=True)
    for path in sources:
        text = open(path, encoding="utf-8").read()
        for m in re.finditer(r"\bfn (\w+)[^;{]*?\)[^{;]*?(?=\n\s*(?:requires|ensures)|\s*\{)((?:\n\s*(?:requires|ensures)[^\n]*(?:\n(?!\{|\s*(?:requires|ensures))[^\n]*)*)*)", text):
            req = re.findall(r"^\s*requires(?: (\w+))? \{", m[2], re.M)
            ens = re.findall(r"^\s*ensures(?: (\w+))? \{", m[2], re.M)
            own = re.search(r"crates/(\w+)/src", path)
            found.setdefault(m[1], []).append((own[1] if own else "", req, ens))
    return found


def parts(term):
    """The parts of a tuple, read as pairs nested to the right: (a, (b, c)) is [a, b, c]; None for what is no tuple."""
    term = term.strip()
    if not (term.startswith("(") and term.endswith(")")):
        return None
    depth, cuts = 0, []
    for i, ch in enumerate(term):
        depth += ch in "(["
        depth -= ch in ")]"
        if depth == 0 and i < len(term) - 1:
            return None
        if ch == "," and depth == 1:
            cuts.append(i)
    if not cuts:
        return None
    at, out = 1, []
    for cut in cuts + [len(term) - 1]:
        out.append(term[at:cut].strip())
        at = cut + 1
    return out if out[-1] else out[:-1]


def flat(term):
    """The parts of pairs that nest to the right, each pair opened."""
    p = parts(term)
    if p is None or len(p) != 2:
        return [[term.strip()]] if p is None else [p]
    return [[p[0]] + rest for rest in flat(p[1])] + [p]


def swap(text, names):
    """Whole words of the text by a table, where no dot stands before them."""
    return re.sub(r"(?<![^\s(){}.;,@\"«»\[\]])(?<!\.)[^\s(){}.;,@\"«»\[\]]+", lambda m: names.get(m[0], m[0]), text)


class Function:
    def __init__(self, crate, folder, names, clauses):
        self.crate, self.folder, self.names, self.clauses = crate, folder, names, clauses
        self.path = ".".join(os.path.relpath(folder, f"crates/{crate}/proofs").split(os.sep))
        self.fn = self.path.split(".")[-1].lstrip("+")
        own = lambda f: sorted(clauses.get(f, []), key=lambda it: (it[0] != crate, not it[0]))
        self.req = lambda f: [it[1] for it in own(f)]
        self.ens = lambda f: [it[2] for it in own(f)]
        self.needs = {norm(a): b for a, b in names["needs"]}
        self.steps = {}
        for place in names["places"]:
            if place[2][0]:
                self.steps[norm(place[2][0])] = place[2][1]
        self.left = []

    def goal(self, old, called):
        """Today's name of a goal."""
        today = {norm(b): b for b in self.needs.values()}
        for name in (norm(old), re.sub(r"^overflow_", "", norm(old)), norm(called)):
            if name in self.needs:
                return self.needs[name]
        return today.get(norm(old))

    def body(self, text):
        text = re.sub(r"\bκs\b ?", "", text) if re.match(r"^\S+ (?:\w+ )*c κs", text) else text
        text = re.sub(r"(?<=[\w)])(?:\.before\b)+", "", text)
        heads = ["c"] + re.findall(r"\blet (\S+) = c in\b", text)

        def step(m):
            return m[1] + self.steps.get(norm(m[2]), m[2])

        text = re.sub(rf"(?<![^\s(){{}};,@\[\]])((?:{'|'.join(map(re.escape, heads))})\.)([A-Za-z_][\w'-]*)", step, text)
        self.alias = dict(re.findall(r"\blet (\S+) = c\.([\w'-]+) in\b", text))
        return re.sub(r"([\w'-]+)?\.(requires|ensures)((?:\.[01]\b)+)", self.clause, text)

    def clause(self, m):
        """A clause by its name, where it stood by its place among pairs."""
        of = m[1] or ""
        if m[2] == "requires" or not of:
            lists = self.req(self.fn)
        else:
            lists = self.ens(self.alias.get(of, of).split("-")[0])
        at = m[3].split(".")[1:]
        for names in lists:
            n = len(names)
            if n < 2 or not all(names):
                continue
            for k in range(n):
                path = ["1"] * k + ["0"] if k < n - 1 else ["1"] * k
                if at[:len(path)] == path:
                    return f"{of}.{m[2]}.{names[k]}" + "".join("." + x for x in at[len(path):])
        return m[0]

    def convert(self, text):
        head, _, rest = text.partition("\n\n")
        lines = head.split("\n")
        comments = [l for l in lines if l.startswith("--")]
        uses = [l for l in lines if l.startswith("use ") and not re.search(r"\.Statement\.\{|\.Tie as tie|\.Tie\b", l)]
        if not rest or "tie" not in text:
            return None
        invariants, answers, renamed = [], [], {}
        blocks = []
        for block in re.split(r"\n\n+", rest.strip("\n")):
            said = []
            ls = block.split("\n")
            while ls and (ls[0].startswith("--") or not ls[0]):
                said.append(ls.pop(0))
            blocks.append((said, ls))
        for said, ls in blocks:
            m = ls and HEAD.match(ls[0])
            if m and " : tie.Need-" in ls[0]:
                old = re.search(r"tie\.Need-(\S+)", ls[0])[1]
                new = self.goal(old, m[1])
                if new:
                    renamed[m[1]] = new
        for said, ls in blocks:
            if not ls:
                continue
            m = HEAD.match(ls[0])
            if m and re.search(r"tie\.(invariant|decreases)-", ls[0]):
                invariants.append(self.invariant(said, ls))
            elif m and "tie.Need-" in ls[0]:
                old = re.search(r"tie\.Need-(\S+)", ls[0])[1]
                new = self.goal(old, m[1])
                if new is None:
                    text = " ".join(ls[1:])
                    if not re.search(r"= *(search (rules|needs)|omega arith|tt|refl)$", text):
                        self.left.append(f"{old} is no goal today: {text[:200]}")
                    continue
                answers += self.answer(said, ls, m[1], new, renamed)
            elif m and re.match(r"pub \S+[-_]spec : ", ls[0]):
                continue
            else:
                answers.append("\n".join(said + [self.body(l) for l in ls]))
        return comments, uses, [i for i in invariants if i], answers

    def invariant(self, said, ls):
        kind, old = re.search(r"tie\.(invariant|decreases)-(\S+)", ls[0]).groups()
        for at, (pair, vars_) in enumerate(self.names["loops"]):
            if norm(pair[0]) == norm(old):
                new, live, changed = pair[1], vars_, self.names["changed"][at]
                break
        else:
            self.left.append(f"{kind}-{old}: no such loop")
            return None
        text = "\n".join(ls[1:])
        m = re.match(r"(\S+) ((?:[^\s=]+ )*)=\s*", text)
        words = m[2].split()
        now = [v for v, c in zip(live, changed) if c]
        if len(words) != len(live) + len(now):
            self.left.append(f"{kind}-{old}: {len(words)} names for {len(live)} + {len(now)}")
            return None
        table = {}
        for word, v, c in zip(words, live, changed):
            table[word] = f"l.initial.{v}" if c else f"l.{v}"
        for word, v in zip(words[len(live):], now):
            table[word] = f"l.{v}"
        table.pop("_", None)
        body = swap(text[m.end():], table)
        sep = "\n" if text[m.end() - 1] == "\n" or "\n" in body else " "
        body = ("    " + body.lstrip()) if sep == "\n" and not body.startswith(" ") else body
        return "\n".join(said + [f"abbrev pub {kind}-{new} : goal.{kind}-{new}", f"{kind}-{new} l ={sep}{body}"])

    def answer(self, said, ls, name, new, renamed):
        unfolding = [l for l in ls[1:] if l.startswith("unfolding ")]
        rest = "\n".join(l for l in ls[1:] if not l.startswith("unfolding "))
        while rest.startswith(("    ", "\n")) and not rest.startswith(name):
            rest = rest.split("\n", 1)[1]
        m = re.match(r"(\S+) ((?:[^\s=]+ )*)=\s*", rest)
        if not m:
            self.left.append(f"{name}: not read")
            return []
        args = [a for a in m[2].split() if a != "κs"]
        term = rest[m.end():]
        if re.fullmatch(r"\(?search( rules| needs)?\)?", term.strip()) and not unfolding:
            return []
        table = {old: to for old, to in renamed.items()}
        write = lambda goal, t: "\n".join(said + [f"pub {goal} : goal.{goal}"] + unfolding + [f"{goal} {' '.join(args)} ={'' if t.startswith(chr(10)) else ' '}{t}"])
        term = swap(self.body(term), table)
        many = self.split(new, term)
        if many:
            return [write(f"{new}-clause-{k}", v) for k, v in many if not (re.fullmatch(r"\(?search( rules)?\)?", v) and not unfolding)]
        term = self.recorded(new, term)
        if "\n" in term:
            term = "\n    " + term.lstrip()
        return [write(new, term)]

    def recorded(self, goal, term):
        """The term with the tuple at its end as a record of the goal's clauses."""
        depth, at = 0, 0
        for m in re.finditer(r"[(\[]|[)\]]|(?<=\s)in(?=\s)", term):
            depth += m[0] in "(["
            depth -= m[0] in ")]"
            if m[0] == "in" and depth == 0:
                at = m.end()
        last = term[at:].strip()
        names = self.names_of(goal)
        if names and not re.match(r"[(]|search|record|omega|simp|rw|cc|absurd|elim|\?|λ", last):
            # a lemma that says all clauses at once
            n = len(names)
            path = lambda k: ".1" * k + (".0" if k < n - 1 else "")
            fields = "; ".join(f"{k} = all{path(i)}" for i, k in enumerate(names))
            return f"{term[:at]}{' ' if at else ''}let all = {last} in record {{ {fields} }}"
        if at == 0:
            return term
        many = self.split(goal, term[at:])
        if not many:
            return term
        space = re.match(r"\s*", term[at:])[0]
        return term[:at] + space + "record { " + "; ".join(f"{k} = {v}" for k, v in many) + " }"

    def names_of(self, goal):
        """The names of a goal's clauses, where it has several."""
        old = {b: a for a, b in self.names["needs"]}.get(goal)
        lists = [self.names["asked"][old]] if old in self.names["asked"] else []
        if goal.startswith("returns"):
            lists = self.ens(self.fn)[:1]
        return lists[0] if lists and len(lists[0]) > 1 and all(lists[0]) else None

    def split(self, goal, term):
        """The clauses of a goal whose answer was a tuple."""
        p = parts(term)
        if p is None:
            return None
        m = re.match(r"([\w]+?)(?:-.*)?-requires", goal) or re.match(r"(\w+)-requires", goal)
        lists = []
        old = {b: a for a, b in self.names["needs"]}.get(goal)
        if goal.startswith("returns"):
            lists = self.ens(self.fn)
        elif old in self.names["asked"]:
            lists = [self.names["asked"][old]]
        elif m:
            lists = self.req(m[1])
        for names in lists:
            for cut in flat(term):
                if len(cut) == len(names) and all(names):
                    return list(zip(names, cut))
        return None


def main():
    crate = sys.argv[1]
    clauses = clauses_of(".")
    with tempfile.TemporaryDirectory() as room:
        subprocess.run(["rt", "check", "--generated", room, "--old-names"], cwd=f"crates/{crate}", capture_output=True)
        names = json.load(open(os.path.join(room, "names.json"), encoding="utf-8"))
    for path in sorted(glob.glob(f"crates/{crate}/proofs/**/Proof.antt", recursive=True)):
        folder = os.path.dirname(path)
        where = ".".join(os.path.relpath(folder, f"crates/{crate}/proofs").split(os.sep))
        found = names.get(f"Rattle-{crate}-proofs.{where}.Lts")
        text = open(path, encoding="utf-8").read()
        if not found:
            print(f"left: {path}: no names for it")
            continue
        f = Function(crate, folder, found, clauses)
        made = f.convert(text)
        if made is None:
            print(f"left: {path}: no walk by names")
            continue
        comments, uses, invariants, answers = made
        for what in f.left:
            print(f"left: {path}: {what}")
        os.remove(path)
        for file, parts_, module in (("Invariants", invariants, "Given"), ("Answers", answers, "Goals")):
            if not parts_:
                continue
            with open(os.path.join(folder, file + ".antt"), "w", encoding="utf-8") as out:
                body = "\n\n".join(parts_)
                out.write("\n".join(comments + uses + [f"use Rattle.{crate}.proofs.{f.path}.{module} as goal"]) + "\n\n" + body + "\n")
        if not os.listdir(folder):
            os.rmdir(folder)


main()
