#!/usr/bin/env python3
# Spells the definitions and lemmas of this repository in snake case, once, after the kit's own scripts have turned the rest: words in snake case, types and
# modules in camel case, a constant in capitals with underscores. The kit's turner does the turning; this only makes its table, from what the texts declare.
#   snake_names.py FOLDER            turns crates/, docs/ and README.md of FOLDER
#   snake_names.py FOLDER table      prints the table, and each name that stays since it would meet another
import collections, os, re, subprocess, sys, tempfile

NAME = r"[^\s(){}.;,@\"«»:=]+"
DECLARED = re.compile(rf"(?m)^ *(?:(?:pub|abbrev|unfoldable|data|record|opaque) +)*((?:{NAME} +)*?{NAME})(?: \{{[^{{}}\n]*\}})*(?: \([^()\n]*\))* :(?!=)")
MADE = re.compile(r"(?m)^ *(?:(?:pub|abbrev) +)*(\S+) : (?:tie|goal|goals)\.")
SPEC = re.compile(r"(?m)^pub (\S+-spec) : ")
USE = re.compile(r"\b(?:ghost )?use ([^\s;{]+)(?:\{([^;}]*)\})?")
KEPT = {"pub", "abbrev", "unfoldable", "data", "record", "opaque", "module", "use", "open", "where", "let", "in", "elim"}
# Names that would meet another name of the file in their new spelling: what they are called.
OTHERWISE = {
    "noRoom": "out_of_room",
    # lemmas and a field that the kit's scripts have spelt already
    "after_line": "after_line_lem",
    "bothTold": "told_both",
    "met_at": "met_at_lem",
    "same_at": "same_at_lem",
    "same_text": "same_text_lem",
    "spanFits": "fits_span",
}


def texts(top):
    for folder, inner, files in os.walk(os.path.join(top, "crates")):
        inner[:] = sorted(d for d in inner if d != "out")
        for f in sorted(files):
            if f.endswith((".antt", ".rt")):
                yield os.path.join(folder, f)


def spelt(name):
    """The name in snake case: the humps of a word, and each dash."""
    if name in OTHERWISE:
        return OTHERWISE[name]
    words = [re.sub(r"(?<=[a-z0-9₀-₉])[A-Z]", lambda m: "_" + m[0].lower(), w) if w[:1].islower() else w for w in name.split("-")]
    return "_".join(words)


def table(top):
    crates = set(os.listdir(os.path.join(top, "crates")))
    own, theirs = set(), set()
    code = {}
    for path in texts(top):
        text = open(path, encoding="utf-8").read()
        if path.endswith(".rt"):
            code[path] = re.sub(r"//[^\n]*|\"(?:\\.|[^\"\\])*\"", " ", text)
        else:
            code[path] = re.sub(r"(?m)\"(?:\\.|[^\"\\\n])*\"|(?<!\S)--(?: [^\n]*|-*$)", " ", text)
        for where, items in USE.findall(code[path]):
            steps = where.strip(".").split(".")
            if not (steps[0] == "Rattle" and len(steps) > 1 and steps[1] in crates):
                theirs.update(re.findall(NAME, items))
    for path, text in code.items():
        if path.endswith(".rt"):
            continue
        made = set(MADE.findall(text)) | set(SPEC.findall(text))
        for names in DECLARED.findall(text):
            names = names.split()
            own.update(n for n in names if n not in KEPT and n not in made)
    own = {n for n in own if ("-" in n.strip("-") or re.match(r"[a-z]\S*[a-z0-9₀-₉][A-Z]", n)) and re.match(r"[^\W_]", n)}
    own -= theirs
    for path, text in code.items():
        if path.endswith(".antt"):
            own -= set(MADE.findall(text)) | set(SPEC.findall(text))
    own |= set(OTHERWISE)
    # a name that is made by the kit somewhere, as a goal's or a field's, stays
    rows = {n: spelt(n) for n in own if spelt(n) != n}
    # a lemma that would have its function's name is that name's `_lem`
    for old in [n for n, _ in clashes(code, rows).items() if "-" in n]:
        rows[old] += "_lem"
    return rows, clashes(code, rows)


def clashes(code, rows):
    """Each name that would meet another in some file, with the files."""
    meets = collections.defaultdict(set)
    for path, text in code.items():
        if path.endswith(".rt"):
            here = set(re.findall(r"[(,]\s*(?:mut )?(\w+):", text)) | {n for _, items in USE.findall(text) for n in re.findall(NAME, items)}
        else:
            here = set(re.findall(NAME, USE.sub(lambda m: m[2] or "", text)))
        new = collections.defaultdict(set)
        for n in here:
            new[rows.get(n, n)].add(n)
        for to, olds in new.items():
            if len(olds) > 1 and any(o in rows for o in olds):
                for o in olds:
                    if o in rows:
                        meets[o].add((path, to))
    return meets


def main():
    if len(sys.argv) not in (2, 3):
        sys.exit("snake_names.py FOLDER [table]")
    top = sys.argv[1]
    rows, meets = table(top)
    if sys.argv[2:] == ["table"]:
        for old, new in sorted(rows.items()):
            print(f"{old}\t{new}")
        for old, where in sorted(meets.items()):
            print(f"meets: {old} -> {rows[old]}: {', '.join(sorted(os.path.relpath(p, top) for p, _ in where)[:6])}")
        return
    page = subprocess.run(["rt", "doc"], check=True, capture_output=True, text=True).stdout.strip()
    turner = os.path.join(os.path.dirname(page), "port/notes/2026-11-18-names-are-in-snake-case/snake.py")
    with tempfile.NamedTemporaryFile("w", suffix=".tsv", encoding="utf-8", delete=False) as f:
        f.writelines(f"{old}\t{new}\n" for old, new in sorted(rows.items()) if old not in meets)
    where = [os.path.join(top, p) for p in ("crates", "docs", "README.md")]
    subprocess.run([sys.executable, turner, "--table", f.name, "--only", "antt,rt,md", "--prose", "none", *where], check=True)
    os.unlink(f.name)


main()
