#!/usr/bin/env python3
# Holds today's texts against those of a commit in the older spelling, word by word: each file of definitions (specs/), each clause of a function, each
# file of lemmas (proofs/, but for the folders of functions), each must-fail edit but for the imports that it brings in. Words are turned as tools/snake_names.py and the kit's scripts turn them; brackets that group,
# imports and comments do not count. Whatever else differs is printed; it is for a reader to judge.
#   respelt.py COMMIT
import difflib, os, re, subprocess, sys

TOKEN = re.compile(r"\"[^\"\n]*\"|[^\s(){}.,;\"«»⌜⌝]+|[.,;{}]")
# folders that are called otherwise today
MOVED = {"crates/csv/": "crates/csv_text/"}
# words of the kit, and names of ours that would have met another (tools/snake_names.py)
TURNED = {
    "getD": "get_or", "trailingZeros": "count_trailing_zeros", "⊎-elim": "⊎_elim", "post-is": "Post_is", "listedN": "listed_N",
    "eqb·zero-suc": "eqb_zero_suc", "eqb·suc-zero": "eqb_suc_zero", "eqb·suc-suc": "eqb_suc_suc",
    "spanFits": "fits_span", "noRoom": "out_of_room", "bothTold": "told_both",
}


def shown(commit, path):
    return subprocess.run(["git", "show", f"{commit}:{path}"], capture_output=True, text=True).stdout


def snake(word):
    if word in TURNED:
        return TURNED[word]
    if word[:1] == '"' or not re.match(r"\w", word):
        return word
    word = re.sub(r"·", ".", re.sub(r"^List·", "", word)).replace("′", "'").replace("″", "''")
    parts = [re.sub(r"(?<=[a-z0-9₀-₉])[A-Z]", lambda m: "_" + m[0].lower(), w) if w[:1].islower() else w for w in word.split("-")]
    return re.sub(r"get_d(?=_|$)", "get_or", "_".join(parts))


def same(old, new):
    """Whether a word of the older text and one of today's are one."""
    return old == new or new in (old + "_lem", f"◌{old.strip('_')}◌")


def words(text):
    text = re.sub(r"(?m)(?:^|(?<=\s))--(?:\s.*|-*)$", "", text)
    text = re.sub(r"(?m)^ *use [^\n]*(?:\n +[^\n]*\})?$", "", text)
    return [w for t in TOKEN.findall(re.sub(r"\s+\.(?=\S)", ".", text)) for w in re.split(r"(\.)", snake(t)) if w]


def told(where, old, new):
    """Prints what differs between two lists of words."""
    if len(old) == len(new) and all(same(a, b) for a, b in zip(old, new)):
        return 0
    table = {b: a for a, b in zip(new, old)} if len(old) == len(new) else {}
    matcher = difflib.SequenceMatcher(None, old, [table.get(b, b) if same(table.get(b, b), b) else b for b in new], autojunk=False)
    found = 0
    for op, i, j, k, l in matcher.get_opcodes():
        if op != "equal" and not (j - i == l - k and all(same(a, b) for a, b in zip(old[i:j], new[k:l]))):
            print(f"{where}: {' '.join(old[i:j])[:160]!r} -> {' '.join(new[k:l])[:160]!r}")
            found += 1
    return found


def clauses(text, older):
    """The clauses of each function, by its name and its place among those so called: what it requires and what it ensures, as words."""
    text, found = re.sub(r"//[^\n]*", "", text), []
    for m in re.finditer(r"\bfn (\w+)", text):
        rest = text[m.start():]
        end = re.search(r"\n\s*\{\s*\n|\)\s*(?:->[^{\n]*)?\{", rest)
        head = rest[:end.start() + 1] if end else ""
        said = {"requires": [], "ensures": []}
        for kind, fact in re.findall(r"(requires|ensures)(?:\s+\w+)?\s*\{(.*?)\}(?=\s*(?:requires|ensures|$))", head, re.S):
            fact = fact.strip()
            if older:
                bound = re.match(r"λ\s*(\w+)\s*\.\s*", fact) if kind == "ensures" else None
                if bound:
                    fact = fact[bound.end():]
                    if bound[1] != "_":
                        fact = re.sub(rf"(?<![\w.'-]){bound[1]}(?![\w'-])", "result", fact)
            said[kind] += words(of_today(fact))
        found.append((m[1], said))
    return found


def of_today(fact):
    """A clause's text with the names of a value before and after in one form."""
    fact = re.sub(r"(?<!\.)\bnow \((\w+) \.(entry) \.(\w+)\)", r"\1.\2.\3.entry", re.sub(r"[⌜⌝∗]", " ", re.sub(r"[«»]", "", fact)))
    fact = re.sub(r"(?<!\.)\bnow (\w+)", r"\1.entry", re.sub(r"(?<!\.)\bnow \((\w+) \.(entry|exit)\)", r"\1.\2", fact))
    return re.sub(r"\.(old|now)\b", ".entry", re.sub(r"\.new\b", ".exit", fact))


def edited(text):
    """What an edit changes: its lines, as words."""
    found = []
    for line in text.split("\n"):
        kind, _, rest = line.partition(": ")
        if kind not in ("old", "new"):
            found.append([line])
        elif not re.match(r"(ghost )?use ", rest):
            found.append([kind] + words(of_today(rest)))
    return [word for line in found for word in line]


def main():
    commit = sys.argv[1]
    counts = {"definitions": 0, "clauses": 0, "lemmas": 0, "edits": 0}
    differ = 0
    for path in subprocess.run(["git", "ls-tree", "-r", "--name-only", commit, "crates"], capture_output=True, text=True).stdout.split("\n"):
        today = path
        for old, new in MOVED.items():
            today = today.replace(old, new)
        of = re.match(r"crates/\w+/(?:(specs/.*|proofs/[A-Z]\w*)\.antt|src/.*\.rt|must-fail/.*\.edit)$", path)
        if not of or path.endswith("/Lib.antt"):
            continue
        if not os.path.exists(today):
            print(f"{path}: not there today")
            differ += 1
            continue
        text = open(today, encoding="utf-8").read()
        if path.endswith(".edit"):
            counts["edits"] += 1
            differ += told(path, edited(shown(commit, path)), edited(text))
            continue
        if of[1]:
            counts["definitions" if of[1].startswith("specs") else "lemmas"] += 1
            differ += told(path, words(shown(commit, path)), words(text))
            continue
        now = {}
        for name, said in clauses(text, False):
            now.setdefault(name, []).append(said)
        for name, said in clauses(shown(commit, path), True):
            if not said["requires"] and not said["ensures"]:
                continue
            counts["clauses"] += 1
            there = (now.get(name) or [{"requires": [], "ensures": []}]).pop(0)
            for kind in said:
                differ += told(f"{path}, {name}, {kind}", said[kind], there[kind])
    print(
        f"{counts['definitions']} files of definitions, {counts['clauses']} functions with clauses, {counts['lemmas']} files of lemmas, "
        f"{counts['edits']} files of must-fail edits: {differ} places differ"
    )


main()
