#!/usr/bin/env python3
"""Holds that the layout of the tables has its numbers in one place, and the limits theirs.

    sections.py           says every bare section number, header word or row width that is left in crates/; exit 1 if there is any,
                          or if the two files that name them differ, for the sections or for the limits

The numbers stand in crates/repository/specs/Sections.antt and, for code, in crates/repository/src/sections.rt. Everywhere else
a section is called by its name: `sec w CALLS j` and `word(tables, sections::CALLS, j)`, never `sec w 5 j` nor `word(tables, 5, j)`.
The limits stand in crates/model/specs/Limits.antt and, for code, in crates/repository/src/limits.rt.
"""
import os
import re
import sys

TREE = os.path.dirname(os.path.dirname(os.path.abspath(__file__)))
SPECS = os.path.join("crates", "repository", "specs", "Sections.antt")
CODE = os.path.join("crates", "repository", "src", "sections.rt")
LIMITS = os.path.join("crates", "model", "specs", "Limits.antt")
LIMITS_CODE = os.path.join("crates", "repository", "src", "limits.rt")

# definitions and laws by the place of the section among their arguments, counted from 0
SECOND = """sec size rows count start Under Starts among unseen distinct indexed in_range under starts_section Entry Part EntryWords list_of
    marked_on marked_by Fitting room part_room row_room list_room word_in part_in under_shown index_shown distinct_shown under_so index_so
    distinct_so starting_so starting_shown"""
PLACE = {name: 1 for name in SECOND.split()}
PLACE.update({"JustMarked": 3, "stop_word": 0})
# functions whose second argument is a section
CALLED = """item word size_of entries_of entries rows_of count_of in_range marked_once row_from row_to row_count rows_in listing part size head
    starts_ok"""
# how a row is reached: a number times its words
ROW = re.compile(r"\*\s*([2-9])\b")
TOKEN = re.compile(r"\s+|--[^\n]*|[(){}\[\],;]|[^\s(){}\[\],;]+")
END = set("≡ ≤ < == + - * / % → && || = : ∙ ∷ ≢ ⊎ × in let λ | ↦ ++ ) ] } , ;".split())


def argument(tokens, at):
    """The bounds of the argument that begins at or after a token, or none."""
    while at < len(tokens) and (tokens[at].isspace() or tokens[at].startswith("--")):
        at += 1
    if at >= len(tokens) or tokens[at] in END:
        return None
    if tokens[at] not in "({[":
        return at, at + 1
    deep = 0
    for end in range(at, len(tokens)):
        deep += tokens[end] in ("(", "{", "[")
        deep -= tokens[end] in (")", "}", "]")
        if deep == 0:
            return at, end + 1
    return None


def in_logic(text):
    """The bare numbers of a piece of antt, each with the offset at which it stands."""
    tokens = TOKEN.findall(text)
    offsets = [0]
    for token in tokens:
        offsets.append(offsets[-1] + len(token))
    for i, token in enumerate(tokens):
        if token not in PLACE:
            continue
        place, at = PLACE[token], i + 1
        while (found := argument(tokens, at)) is not None:
            at = found[1]
            if tokens[found[0]] == "{":
                continue
            if place == 0:
                if tokens[found[0]].isdigit():
                    yield offsets[found[0]], token + " .. " + tokens[found[0]]
                break
            place -= 1
    for match in re.finditer(r"\b[kK]\b(?: \+ 1)? [<≤] (1[89]|2[01])\b", text):
        yield match.start(), match[0]
    for match in re.finditer(r"(?<![\w-])size[-_]\d+", text):
        yield match.start(), match[0]


def in_code(text):
    for match in re.finditer(r"\b(" + "|".join(CALLED.split()) + r")\(\s*&?tables,\s*(\d+)\s*[,)]", text):
        yield match.start(), match[0]


def comments_out(text, mark):
    return re.sub(re.escape(mark) + r"[^\n]*", lambda m: " " * len(m[0]), text)


def bare(path, text):
    """Each bare number of a file: line and what stands there."""
    found = []
    text = comments_out(text, "--" if path.endswith(".antt") else "//")
    reads = "repository" in text or "tables" in text
    if path.endswith(".antt"):
        if reads:
            found += in_logic(text)
            found += [(m.start(), m[0]) for m in ROW.finditer(text) if re.search(r"\b(sec|start|rows|size)\b", line_of(text, m.start()))]
    else:
        code = text
        for start, end in clauses(text):
            clause = text[start:end]
            if reads:
                found += [(start + at, what) for at, what in in_logic(clause)]
                found += [(start + n.start(), n[0]) for n in ROW.finditer(clause) if re.search(r"\b(sec|start|rows|size)\b", clause)]
            code = code[:start] + re.sub(r"[^\n]", " ", clause) + code[end:]
        found += in_code(code)
        if "repository" in path or "check" in path:
            found += [(m.start(), m[0]) for m in ROW.finditer(code) if re.search(r"\btables\b|let at\b", line_of(code, m.start()))]
    return sorted((text.count("\n", 0, at) + 1, what) for at, what in found)


def clauses(text):
    """Where the clauses of a piece of code stand."""
    for m in re.finditer(r"\b(?:requires|ensures)\b\*?\s*(?:\w+\s*)?\{", text):
        deep, end = 1, m.end()
        while deep and end < len(text):
            deep += (text[end] == "{") - (text[end] == "}")
            end += 1
        yield m.end(), end - 1


def line_of(text, at):
    return text[text.rfind("\n", 0, at) + 1:text.find("\n", at) if text.find("\n", at) >= 0 else len(text)]


def named(specs, code):
    """The names of a file of definitions and of one of constants, with their numbers."""
    with open(os.path.join(TREE, specs), encoding="utf-8") as file:
        of_specs = {n: int(v) for n, v in re.findall(r"^([A-Z][A-Z_]*) = ([\d_]+)$", file.read(), re.M)}
    with open(os.path.join(TREE, code), encoding="utf-8") as file:
        found = re.findall(r"^pub const ([A-Z_]+): (?:usize|u32) = ([\d_]+);$", file.read(), re.M)
    return of_specs, {n: int(v) for n, v in found}


def main():
    faults = []
    of_specs, of_code = named(LIMITS, LIMITS_CODE)
    for name, number in of_code.items():
        if of_specs.get(name) != number:
            faults.append("%s: %s is %d, and in %s %s" % (LIMITS_CODE, name, number, LIMITS, of_specs.get(name)))
    limits = len(of_code)
    of_specs, of_code = named(SPECS, CODE)
    for name, number in of_specs.items():
        if of_code.get(name) != number:
            faults.append("%s: %s is %d, and in %s %s" % (SPECS, name, number, CODE, of_code.get(name)))
    sections = [n for n in of_specs if n not in ("SECTIONS", "HEADER") and not n.endswith("_WORDS")]
    if [of_specs[n] for n in sections] != list(range(len(sections))):
        faults.append("%s: the sections are not numbered in turn" % SPECS)
    if of_specs.get("SECTIONS") != len(sections) or of_specs.get("HEADER") != len(sections) + 1:
        faults.append("%s: there are %d sections" % (SPECS, len(sections)))
    files = 0
    for folder, _, names in sorted(os.walk(os.path.join(TREE, "crates"))):
        if "out" in os.path.relpath(folder, TREE).split(os.sep):  # what is built
            continue
        for name in sorted(names):
            path = os.path.relpath(os.path.join(folder, name), TREE)
            if not name.endswith((".antt", ".rt")) or path in (SPECS, CODE):
                continue
            files += 1
            text = open(os.path.join(TREE, path), encoding="utf-8").read()
            faults += ["%s:%d: %s" % (path, line, what) for line, what in bare(path, text)]
    for fault in faults:
        print(fault)
    if faults:
        print("sections: %d bare numbers or faults" % len(faults))
        return 1
    print("sections: %d names and %d limits, and no bare number in %d files" % (len(of_specs), limits, files))
    return 0


if __name__ == "__main__":
    sys.exit(main())
