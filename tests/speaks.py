# Of which texts of its crate a function or a module speaks, as far as names and imports go: more than it may need, and never less. Text only.
import functools, glob, os, re, sys

sys.dont_write_bytecode = True  # no folder of compiled scripts in the tree
from reading import Function, HEAD

# What stands in no function, as a type does, or over one, as `#[tactic(..)]`, is spoken of by all functions of the crate. In these crates a type is spoken of by
# whoever names it, and what stands over a function by its own proof alone. Each with the reason; `tests/edits.py before` refuses one that is here without need.
BY_NAME = {
    "allocator": "a workspace's type says `Tidy`: `is_better`, which knows no workspace, would speak of it too",
    "path": "over `backtrack` the law `placed_once` is named, which speaks of `Once`: `size_back`, which puts no leg, would speak of it too",
}
TYPE = re.compile(r"^ *(?:pub(?:\([^)]*\))? )?(?:struct|enum) (\w+)[^;{]*(?:;|\{.*?^ *\})", re.M | re.S)
# What stands for a type or holds a value of one: its text names the type, and who names it need not.
NAMED = re.compile(r"^ *(?:pub(?:\([^)]*\))? )?(?:type|const|static) (?!fn\b)(\w+).*?;$", re.M | re.S)
# A trait's `impl` up to its first method: the types that it names, as `type Item = Leg;` does, are spoken of by whoever names its own.
TRAITS = re.compile(r"^impl\b[^\n]*? for (\w+)[^\n]*\n.*\Z", re.M | re.S)


def read(path):
    with open(path, encoding="utf-8", errors="replace") as f:
        return f.read()


class Crate:
    """A crate as nodes: `specs/X.antt`, `proofs/X.antt`; of each function F its contract `head:F`, its body `body:F`, and `fn:F`, what is proved of it."""

    def __init__(self, folder, name, by_name=None):
        self.name, self.texts, self.functions = name, {}, {}
        by_name = name in BY_NAME if by_name is None else by_name
        for part in ("src", "specs", "proofs"):
            for path in sorted(glob.glob(f"{folder}/{part}/**/*", recursive=True)):
                if os.path.isfile(path):
                    self.texts[os.path.relpath(path, folder).removesuffix(".txt")] = read(path)  # a kept text that no crate has ends in .txt
        for file in [f for f in self.texts if f.endswith(".rt")]:
            for found in HEAD.finditer(self.texts[file]):
                f = Function(f"crates/{self.name}/{file}", self.texts[file], found)
                module = file[len("src/") : -len(".rt")].replace("/", "::")
                f.file, f.starts = file, found.start()
                f.leads = re.search(r"(?:^ *(?:#\[|//)[^\n]*\n)*\Z", self.texts[file][: f.starts], re.M).start() if by_name else f.starts
                self.functions["::".join(([] if module in ("lib", "main") else [module]) + ([f.owner] if f.owner else []) + [f.name])] = f
        self.says = {}
        for file in [f for f in self.texts if f.endswith(".antt")]:
            self.says.setdefault(self.node(file), set()).update(self.named(self.texts[file]) - {self.node(file)})
        outside, types = set(), {}
        for file in [f for f in self.texts if f.endswith(".rt")]:
            for a, b in self.between(file):
                stretch = self.texts[file][a:b]
                for found in [*TYPE.finditer(stretch), *NAMED.finditer(stretch), *TRAITS.finditer(stretch)]:
                    types.setdefault(found.group(1), []).append((file, found.group()))
                outside |= self.spoken(self.texts[file], TYPE.sub("", stretch) if by_name else stretch)
        of = lambda words: {f"type:{word}" for word in re.findall(r"\w+", words) if word in types}
        for word, texts in types.items():
            self.says[f"type:{word}"] = set().union(*(self.spoken(self.texts[file], text) | of(text) for file, text in texts))
        for name, f in self.functions.items():
            text = self.texts[f.file]
            own = {f"type:{word}" for word in types if f.owner.startswith(word)}  # what `self` is
            self.says[f"head:{name}"], self.says[f"body:{name}"] = self.spoken(text, f.head) | of(f.head) | own, self.spoken(text, f.body) | of(f.body) | own
            called = {f"head:{other}" for other, g in self.functions.items() if other != name and re.search(rf"\b{g.name}\b", f.body)}
            led = self.spoken(text, text[f.leads : f.starts])  # what is said over a function is said of its own proof
            self.says.setdefault(f"fn:{name}", set()).update({f"head:{name}", f"body:{name}"} | led | called | outside)

    def between(self, file):
        """The stretches of a source file that are no function."""
        at, found = 0, []
        for f in sorted((f for f in self.functions.values() if f.file == file), key=lambda f: f.starts):
            found.append((at, f.leads))
            at = f.ends
        return [*found, (at, len(self.texts[file]))]

    def node(self, file):
        """The node that an .antt file belongs to: what stands in the folder of a function is its proof."""
        name = os.path.dirname(file).removeprefix("proofs/").replace("/", "::")
        return f"fn:{name}" if name in self.functions else file

    def named(self, text):
        """The nodes of this crate that a text names by their modules."""
        found = set()
        for m in re.finditer(rf"\b(?:Rattle\.{self.name}\.|crate::)(specs|proofs)((?:(?:\.|::)\w+)+)", text):
            parts = re.split(r"\.|::", m.group(2))[1:]
            for k in range(len(parts), 0, -1):
                file, name = f"{m.group(1)}/{'/'.join(parts[:k])}.antt", "::".join(parts[:k])
                if file in self.texts or m.group(1) == "proofs" and name in self.functions:
                    found.add(self.node(file) if file in self.texts else f"fn:{name}")
                    break
        return found

    def spoken(self, source, text):
        """The nodes that a part of a source file names, by itself or by what the file imports under a name that stands in it."""
        text = re.sub(r"^(?:ghost )?use [^;]*;|(?:^|(?<=\s))//.*$", "", text, flags=re.M)
        found = self.named(text)
        for m in re.finditer(r"^ghost use ([^;{]+?)(?:\.\{([^}]*)\}| as (\w+))?;", source, re.M):
            names = (m.group(2) or m.group(3) or m.group(1).split(".")[-1]).split(",")
            for word in (w for n in names for w in n.split(" as ")[-1].strip().split("◌") if w):
                if re.search((r"(?<!\w)" if word[0].isalnum() else "") + re.escape(word), text):
                    found |= self.named(m.group(1))
        return found

    @functools.cache
    def reach(self, node):
        """All that a node speaks of, itself and by way of others."""
        seen, todo = set(), [node]
        while todo:
            at = todo.pop()
            if at not in seen:
                seen.add(at)
                todo += self.says.get(at, ())
        return seen

    def changed(self, file, old):
        """The node that a replacement changes; None where it is no definition, contract or body, or does not stand there once."""
        text = self.texts.get(file, "")
        if text.count(old) != 1:
            return None
        if file.startswith("specs/"):
            return file
        at, end = text.index(old), text.index(old) + len(old)
        for name, f in self.functions.items():
            if f.file == file and f.begins < at and end < f.ends:
                return f"body:{name}"
            if f.file == file and f.starts + len(f.head.split("(")[0]) < at and end <= f.begins:
                return f"head:{name}"
        return None
