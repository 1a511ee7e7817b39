#!/usr/bin/env python3
"""Counts the places in crates/*/src that docs/DESIGN-PASS.md speaks of, point by point.

    tools/places.py [-v] [COMMIT]

Without COMMIT the working tree is read. -v names each place. A count says where to look, not that a place is a fault.
"""
import re
import subprocess
import sys

# what a variant is called that stands for "none", "bad", "full": an enum with such a one beside a value is an Option or a Result
LESS = set(
    "Nothing Nowhere Never Off Done End Bad Wrong Full Absent Twice TooLarge Failed NoForm NoMinutes Refused Gone Last "
    "No NoRouteFound FailedToBuildRoute TooLong Unknown".split()
)
WORDS = set(
    "fn pub let mut if else while loop for in return match true false as usize u8 u32 u64 bool self ensures requires".split()
)


def sources(commit):
    """{path: text without comments} of crates/*/src at a commit, or in the working tree."""
    found = {}
    if commit:
        names = subprocess.run(
            ["git", "ls-tree", "-r", "--name-only", commit, "crates"], capture_output=True, text=True, check=True
        ).stdout.split()
    else:
        names = subprocess.run(["git", "ls-files", "crates"], capture_output=True, text=True, check=True).stdout.split()
    for name in sorted(names):
        if not re.fullmatch(r"crates/\w+/src/\w+\.rt", name):
            continue
        if commit:
            text = subprocess.run(["git", "show", commit + ":" + name], capture_output=True, text=True, check=True).stdout
        else:
            text = open(name).read()
        found[name] = re.sub(r"//[^\n]*", "", text)
    return found


def functions(text):
    """(name, head, clauses, body) of each function."""
    for m in re.finditer(r"(?:^|\n)\s*(?:pub )?(?:const )?(?:extern \"C\" )?fn (\w+)", text):
        at = m.start()
        # the body opens at the first brace that stands alone on its line, or that ends the head
        opened = re.compile(r"\n\s*\{\n|\)[^{};\n]*\{\n").search(text, m.end())
        if not opened:
            continue
        start = text.index("{", opened.start() if opened.group().startswith("\n") else opened.end() - 2)
        depth, end = 0, start
        while end < len(text):
            depth += {"{": 1, "}": -1}.get(text[end], 0)
            end += 1
            if depth == 0:
                break
        head = text[at:start]
        clauses = re.split(r"\n\s*(?=requires|ensures)", head)
        yield m.group(1), clauses[0], clauses[1:], text[start:end]


def shape(body):
    """The body with each name and number put as the place of its first appearance."""
    seen = {}

    def put(m):
        word = m.group()
        if word in WORDS:
            return word
        return "@%d" % seen.setdefault(word, len(seen))

    body = re.sub(r"\b\w+::", "", body)
    return re.sub(r"\s+", " ", re.sub(r"\b\w+\b|b\"[^\"]*\"", put, body))


def count(files):
    places = {}

    def place(point, what):
        places.setdefault(point, []).append(what)

    facts, groups, shapes = {}, {}, {}
    for name, text in files.items():
        short = name[len("crates/"):].replace("/src/lib.rt", "").replace("/src/", "::").replace(".rt", "")
        for m in re.finditer(r"\benum (\w+)(?:<[^>]*>)? \{(.*?)\n\}", text, re.S):
            variants = re.findall(r"\n    (\w+)( \{|\()?", "\n" + m.group(2))
            empty = [v for v, given in variants if not given]
            if len(empty) < len(variants) and any(v in LESS for v, _ in variants):
                place("1 own Option or Result", short + " " + m.group(1))
        for m in re.finditer(r"\bstruct (\w+)(?:<[^>]*>)? \{(.*?)\n\}", text, re.S):
            for flag in re.findall(r"(\w+): bool", m.group(2)):
                place("1 flag beside values", short + " " + m.group(1) + "." + flag)
        for m in re.finditer(r"\bRefused\(u32\)|\b(?:number|fault): u32|fn (?!main)\w*(?:fault|refusal|number|check)\w*\([^;{]*?\) -> u32", text):
            place("1 number for a refusal", short + " " + " ".join(m.group().split())[:60])
        for m in re.finditer(r"\n\s*(while [^\n]*|loop) \{", text):
            place("3 while or loop", short + " " + m.group(1))
        for m in re.finditer(r"\nimpl[^\n]*\{|#\[derive\([^\n]*", text):
            if "impl" in m.group():
                place("4 impl", short + " " + m.group().strip())
        for fn, head, clauses, body in functions(text):
            given = re.sub(r"\s+", " ", head)
            for group in ("words: &mut [u32], marks: &mut [u64], stops: u32, routes: u32",
                          "words: &[u32], stops: u32, routes: u32", "marks: &[u64], stops: u32, routes: u32",
                          "first: &[u8], second: &[u8], book"):
                if group in given:
                    place("5 parameters that travel together", short + " " + fn + ": " + group)
            if re.search(r"\w+: &\[u8\], (\w+: [^,]*, )*?\w+: usize, \w+: (usize|u32)", given):
                place("6 a slice with its ends beside it", short + " " + fn)
            for clause in clauses:
                m = re.match(r"requires[ \w]*\{ \(?([A-Z]\w*) ", clause)
                if m:
                    facts.setdefault(m.group(1), []).append(short + " " + fn)
            for m in re.finditer(r"match (\w+) \{\s*\w+::(\w+) => \{?\s*(?:return )?(\w+)\((?:[^(){}]|\([^()]*\))*\)[;,]?", body):
                if re.search(r"\w+::" + m.group(2) + r",?\s*[^)]*\)", m.group()[len("match "):]) and m.group(2) in ("Departure", "Arrival"):
                    place("7 a switch that only fixes an argument", short + " " + fn)
            if len(re.findall(r"\n\s*(match \w+ \{|\w+::\w+(\([^)]*\))? => (\d+|b\"[^\"]*\"),)", body)) > 2:
                place("4 conversion by hand", short + " " + fn)
            if len(body) > 60:
                shapes.setdefault(shape(body), []).append(short + " " + fn)
    for fact, where in facts.items():
        if len(where) > 2:
            places.setdefault("5 fact in three contracts or more", []).append("%s: %d" % (fact, len(where)))
    for same in shapes.values():
        if len(same) > 1:
            for one in same[1:]:
                place("2 twin function", one + " ~ " + same[0])
    return places


def main(words):
    tell = "-v" in words
    words = [w for w in words if w != "-v"]
    places = count(sources(words[0] if words else None))
    for point in sorted(places):
        print("%4d  %s" % (len(places[point]), point))
        if tell:
            for what in places[point]:
                print("          " + what)


if __name__ == "__main__":
    main(sys.argv[1:])
