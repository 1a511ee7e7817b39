# What must be believed: the files of definitions that a promise speaks of, from the statements that the page cites down through every file that these use,
# with their lines; the types that are declared in code; and what those files take from the kit.
import functools, os, re

from reading import crates, source, text_of, there

SAYS = {
    "allocator": "where a label, a mark or a parent stands in the workspace, and that nothing stands beside them",
    "base": "lists, bits and counting that belong to no subject",
    "journey": "journey bytes as the code's own reader gives them",
    "kiosk_c": "what the C face answers and leaves",
    "kiosk_words": "a query, an answer and a leg as words",
    "columns": "the five fields that are wanted of a line, and where a column stands in a header",
    "csv_text": "lines and fields of a file",
    "feed": "document 02's request 1: what is read of the two files, why a line is refused, what is written",
    "gtfs_c": "what the feed's C face answers and leaves",
    "gtfs_headers": "a header as the code answers with it",
    "gtfs_lines": "a line's values as the code answers with them",
    "gtfs_rows": "what becomes of a row of stop_times.txt",
    "gtfs_paths": "what becomes of a row of transfers.txt",
    "gtfs_promises": "what the promises of request 1 are stated with",
    "gtfs_read": "the contract of the reader",
    "gtfs_write": "how a writer of rows answers",
    "gtfs_write_times": "what the writer of stop times answers",
    "gtfs_write_transfers": "what the writer of transfers answers",
    "handheld": "document 02's request 2: which legs are right, how it is decided, what the depot is told",
    "judge": "the query that a verdict is given for",
    "judge_legs": "where the legs lead that bytes are read as",
    "judge_paths": "the two lists of footpaths under one name",
    "judge_rides": "a trip in the route that it stands in",
    "reader": "where a reader stands behind what it has read",
    "arguments": "what the arguments of the programs say",
    "verdict_line": "what is printed of a verdict",
    "questions": "the query that the arguments' parts are",
    "check_listing": "the rules of number 2 as its code tests them",
    "marks": "64 stops to a word",
    "model": "document 01's search, answers, bytes and journeys",
    "names": "names by their numbers, and the book in which their places stand",
    "numbers": "decimal digits, and the moments that a clock shows",
    "path": "document 02's request 3: where each leg is put, and how often a byte is; and where the way back goes on",
    "raptor_reply": "the target that a reply is given for, and its legs",
    "raptor": "the contract of `solve`",
    "repository": "the tables: their layout, the network that they hold, the rules that they keep",
    "check_tables": "the numbers 1 to 5",
    "shared": "the seconds of every footpath",
}
USE = re.compile(r"^\s*(?:ghost )?(?:pub )?use ([^\s{;]+)\.\{([^}]*)\}", re.M)


@functools.cache
def ours():
    """The crates of this tree; every other module is the kit's."""
    return frozenset(crates())


@functools.cache
def file_of(module):
    """The file of a module of ours, or the crate in whose code a type is declared."""
    found = re.match(r"Rattle\.(\w+)\.(specs|proofs)\.(.+)$", module)
    if not found or found.group(1) not in ours():
        return None
    crate, part, rest = found.groups()
    if rest.startswith("declared."):
        return ("declared", crate, rest.split(".")[1])
    path = f"{crate}/{part}/{rest.replace('.', '/')}.antt"
    return path if there(f"crates/{path}") else None


def names(braces):
    """The names that a `use` brings, as they are called here and there."""
    for one in braces.split(","):
        was, _, now = one.strip().partition(" as ")
        if was:
            yield (now or was).strip(), was.strip()


def words_of(path, name):
    """The words of a statement, with what the modules around it take."""
    own = source(path, name)
    words = set(re.findall(r"[^\s(){}⌜⌝«»,;\[\]λ]+", " ".join(own[1]) + " " + own[2])) if own else set()
    return words | {part for w in words for part in w.split(".")}


def spoken_of(path, name):
    """The files that one statement speaks of, and its own where it is a definition."""
    words = words_of(path, name)
    found = {path} if source(path, name) and source(path, name)[0] == "definition" else set()
    for module, braces in used(path) if words else ():
        if file_of(module) and any(now in words for now, was in names(braces)):
            found.add(file_of(module))
    return found


@functools.cache
def defined(path):
    """What a file defines or proves, private names too."""
    return set(re.findall(r"^ *(?:abbrev |unfoldable )?(?:pub )?(?:record |data )?(\S+) (?::|\()", text_of(f"crates/{path}"), re.M))


def under_proofs(statements):
    """The names that are defined under proofs/ and that statements use: networks, questions and shorthands, by file."""
    found = {}
    for path, name in statements:
        words = words_of(path, name)
        if "/proofs/" not in path or not words:
            continue
        for module, braces in used(path):
            file = file_of(module)
            if isinstance(file, str) and "/proofs/" in file:
                found.setdefault(file, set()).update(was for now, was in names(braces) if now in words)
        own = source(path, name)
        bare = set(re.findall(r"(?<![\w.'-])[^\W\d_][\w'⁺-]*", " ".join(own[1]) + " " + own[2]))  # no field of a record
        if bare & defined(path) - {name}:
            found.setdefault(path, set()).update(bare & defined(path) - {name})
        if own[0] == "definition":
            found.setdefault(path, set()).add(name)
    return {f: n for f, n in found.items() if n}


@functools.cache
def used(path):
    """The modules that a file uses, each with its names."""
    return USE.findall(text_of(f"crates/{path}"))


@functools.cache
def closure(statements):
    """All files that the statements speak of, with all that these use."""
    todo, files = set(), set()
    for path, name in statements:
        todo |= spoken_of(path, name)
    while todo:
        one = todo.pop()
        if one in files:
            continue
        files.add(one)
        if isinstance(one, str) and "/specs/" in one:
            todo |= {f for f in (file_of(m) for m, b in used(one)) if f} - files
    return files


def lines(path):
    text = [l.strip() for l in text_of(f"crates/{path}").rstrip("\n").split("\n")]
    return len(text), len([l for l in text if l and not l.startswith(("--", "use ", "pub use "))])


def counted(statements, known=()):
    """The table: folder, files, lines, lines that define, what it says; without what the statements that are known speak of."""
    files = closure(statements) - closure(known)
    rows, all_lines, all_own = [], 0, 0
    for crate in sorted({f.split("/")[0] for f in files if isinstance(f, str) and "/specs/" in f}):
        own = sorted(f for f in files if isinstance(f, str) and f.startswith(f"{crate}/specs/"))
        counts = [lines(f) for f in own]
        total, defines = sum(c[0] for c in counts), sum(c[1] for c in counts)
        all_lines, all_own = all_lines + total, all_own + defines
        listed = ", ".join(f"[{os.path.basename(f)[:-5]}](../crates/{f})" for f in own)
        rows.append(f"| `crates/{crate}/specs` | {listed} | {total:,} | {defines:,} | {SAYS.get(crate, '?')} |")
    rows.append(f"| {'together' if not known else 'these together'} | {len([f for f in files if isinstance(f, str) and '/specs/' in f])} files | {all_lines:,} | {all_own:,} | |")
    head = "| folder | files | lines | that define | what it says |\n|---|---|---|---|---|\n"
    under = under_proofs(statements)
    under = {f: n - under_proofs(known).get(f, set()) for f, n in under.items() if n - under_proofs(known).get(f, set())}
    tail = "Networks, questions and shorthands that statements use stand under `proofs/`: "
    tail += "; ".join(f"`{f}` " + ", ".join(f"`{n}`" for n in sorted(under[f])) for f in sorted(under)) + ".\n\n" if under else ""
    kinds = {}
    for one in files:
        if not isinstance(one, str):
            kinds.setdefault(one[1], set()).add(one[2])
    declared = "; ".join(f"`crates/{c}/src`: " + ", ".join(f"`{k}`" for k in sorted(kinds[c])) for c in sorted(kinds))
    hours = (all_own + 5 * 60 - 1) // (5 * 60)
    return (
        head
        + "\n".join(rows)
        + f"\n\n{tail}Types that the definitions speak of and the code declares: {declared}.\n\n"
        + f"At five defining lines a minute, which is slow, it is some {hours} hours; nobody has timed it.\n"
    )


def kit(statements):
    """What these files take from the kit, module by module."""
    taken = {}
    for one in closure(statements):
        if isinstance(one, str):
            for module, braces in used(one):
                if not re.match(r"Rattle\.(\w+)\.", module) or module.split(".")[1] not in ours():
                    taken.setdefault(module, set()).update(was for now, was in names(braces))
    return "".join(f"- `{m}`: {', '.join(f'`{n}`' for n in sorted(taken[m]))}\n" for m in sorted(taken))
