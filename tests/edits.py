#!/usr/bin/env python3
# A must-fail edit costs its crate's whole check, so an edit file may have several parts, each headed by a line `part: NAME`, which rt passes over.
# This holds each part refused by itself, as if it stood alone. A part changes bodies of functions, contracts or definitions. In what the prover says of
# the file there must be a refusal, in the proof of a function or in a module of laws, that speaks of what this part
# changes and of nothing that another part changes (tests/speaks.py), so it would be there without the others. A caller speaks of its callee's contract
# and never of its body. A refusal that only says that something else was not admitted comes from there, and one that misses a module or a
# goal by its name from there too or from the code's shape: neither counts. Where something is refused that speaks of no part, nothing is concluded.
# `rt ci` keeps no more of what the prover says than its first line, so the prover is asked once more, over the libraries that stand (tools/proved.py); what
# it says is kept in target/edits for as long as nothing changes. A goal is named by the tests on its way (`returns-then-n-eq8`), so a part that changes such a test
# changes the names of goals too: where a part has no refusal for that, the answers get the new names, and the prover is asked again.
#   edits.py         after `rt ci`: every part. With names of crates those alone
#   edits.py before  before it: whether each part can have a refusal of its own; and the script itself is tried on a kept case (tests/edits), where a part
#                    that is no fault must be seen, and one that hides behind another
#   edits.py list    the parts, and what they change
import concurrent.futures, glob, os, re, shutil, sys, tempfile

sys.dont_write_bytecode = True  # no folder of compiled scripts in the tree
from reading import HERE, parts_of
from speaks import BY_NAME, Crate, read

sys.path.insert(0, os.path.join(HERE, "tools"))
import proved

CASE = os.path.join(HERE, "tests/edits")


def refused(crate, said):
    """The nodes that have a refusal of their own in what the prover said."""
    own = set()
    for line in said.split("\n"):
        error = re.match(r"(?:\S*/)?(proofs/\S+\.antt):\d+:\d+: error: (.*)", line)
        if error and not re.search(r"was not admitted| has no (?:field )?`|is not in scope", error.group(2)):
            own.add(crate.node(error.group(1)))
        none = re.match(r"fn \w+?::(\S+): no proof: expected answers in \S+; `search` did not prove ", line)
        if none:
            own.add(f"fn:{none.group(1)}")
    return own


def wrong_of(crate, edit, said):
    """What is wrong with the parts of an edit's text, and the parts with what each changes. `said` is what the prover said; None asks before it is known."""
    try:
        found = parts_of(edit, "")
    except ValueError as e:
        return [str(e)], {}
    wrong = ["it changes something before its first part"] if "" in found else []
    changes = {}
    for name, pairs in found.items():
        changes[name] = {crate.changed(file, old) for file, old, new in pairs}
        wrong += [f"{name}: it changes more than a definition, a contract or a body: {old.strip()}" for file, old, new in pairs if not crate.changed(file, old)]
        if not pairs or any(re.search(r"\bfn\b", new) for _, _, new in pairs):
            wrong.append(f"{name}: it changes nothing, or brings in a function")
    every = {node for node in crate.says if node.startswith(("fn:", "proofs/"))}
    own = every if said is None else refused(crate, said)
    for name, mine in changes.items():
        others = set().union(*(c for n, c in changes.items() if n != name))
        if not any(crate.reach(node) & mine and not crate.reach(node) & others for node in own):
            hides = sorted(n for n, c in changes.items() if n != name and c & mine)
            wrong.append(f"{name}: {'NOT REFUSED by itself' if said is not None else 'it cannot be refused by itself'}" + (f": {', '.join(hides)} changes the same" if hides else ""))
    together = set().union(*changes.values())
    wrong += [f"{node} is refused and speaks of no part: which part is refused cannot be told" for node in sorted(own) if said is not None and not crate.reach(node) & together]
    return wrong, changes


def tried():
    """The kept case, a crate, edits with parts, and what the prover said of the second of them once: what is seen in each."""
    crate, said, got = Crate(f"{CASE}/crate", "shared"), read(f"{CASE}/said"), []
    for line in read(f"{CASE}/lines").split("\n")[:-1]:  # other things that it says: whether each is a refusal of its own
        got.append(f"{'own' if refused(crate, line) else 'not its own'}: {line}")
    with tempfile.TemporaryDirectory() as room:  # answers to goals that an edit renamed
        for file, text in crate.texts.items():
            os.makedirs(os.path.dirname(f"{room}/{file}"), exist_ok=True)
            with open(f"{room}/{file}", "w", encoding="utf-8") as f:
                f.write(text)
        os.makedirs(f"{room}/proofs/distance_ok")
        shutil.copyfile(f"{CASE}/answers", f"{room}/proofs/distance_ok/Answers.antt")
        got += [f"renamed: {renamed(room, 'shared', read(f'{CASE}/gone'))}", *(line for line in read(f"{room}/proofs/distance_ok/Answers.antt").split("\n") if line)]
    for edit in sorted(glob.glob(f"{CASE}/*.parts")):
        wrong, _ = wrong_of(crate, read(edit), said)
        got += [f"{os.path.basename(edit)[:-6]}: {w}" for w in wrong or ["nothing is wrong"]]
    return got


def renamed(room, name, said):
    """Gives the answers to goals that an edit renamed their new names, in a copy of the crate: the test in the name of a goal that is gone, and the one in the
    name of a goal of the same function that is not proved. Whether there was one."""
    crate, done = Crate(room, name), set()
    gone = re.findall(r"proofs/(\S+)/Answers\.antt:\d+:\d+: error: `\S+`: `goal\.(\S+?)`: module \S+ has no `\2` that can be named", said)
    open_goals = re.findall(r"^note: (src/\S+\.rt):(\d+):\d+: it is not proved that .*?\(`([^`]+)`\)", said, re.M)
    parts_of_goal = lambda goal: re.match(r"(\w+-(?:then|else|in)-)(.+?)((?:-clause-.*)?)$", goal)
    for folder, old in gone:
        f, was = crate.functions.get(folder.replace("/", "::")), parts_of_goal(old)
        lines = f and range(crate.texts[f.file].count("\n", 0, f.starts) + 1, crate.texts[f.file].count("\n", 0, f.ends) + 2)
        for file, line, new in open_goals if f and was and (folder, was.group(2)) not in done else ():
            now = parts_of_goal(new)
            if not now or file != f.file or int(line) not in lines or (was.group(1), was.group(3)) != (now.group(1), now.group(3)):
                continue
            done.add((folder, was.group(2)))
            path = f"{room}/proofs/{folder}/Answers.antt"
            text = re.sub(rf"(?<=-){re.escape(was.group(2))}(?=-clause-|[^\w-]|$)", now.group(2), read(path), flags=re.M)
            with open(path, "w", encoding="utf-8") as out:
                out.write(text)
            break
    return bool(done)


def said_of(name, label, edit):
    """What the prover says of a crate with all parts of an edit, or why it could not be asked."""
    log, now = f"{HERE}/target/edits/{name}/{label}.said", proved.state([*proved.below(name), name]) + "\n" + edit
    if os.path.isfile(log) and read(log).startswith(now + "\n====\n"):
        return read(log)[len(now) + 6 :]
    with tempfile.TemporaryDirectory() as room:
        for part in ("src", "specs", "proofs"):
            if os.path.isdir(f"{HERE}/crates/{name}/{part}"):
                shutil.copytree(f"{HERE}/crates/{name}/{part}", f"{room}/{part}")
        for pairs in parts_of(edit, "").values():
            for file, old, new in pairs:
                text = read(f"{room}/{file}")
                if text.count(old) != 1:
                    return f"NOT TRIED: its old text does not stand in {file} once: {old.strip()}"
                with open(f"{room}/{file}", "w", encoding="utf-8") as f:
                    f.write(text.replace(old, new))
        status, said = proved.rattle("check", name, room)
        if status == 1 and any("NOT REFUSED" in w for w in wrong_of(Crate(f"{HERE}/crates/{name}", name), edit, said)[0]) and renamed(room, name, said):
            status, said = proved.rattle("check", name, room)
    if status != 1 or not said.rstrip("\n").endswith("logic=not-proved"):
        return f"NOT TRIED: the prover ended with status {status}: {said[-300:]}"
    os.makedirs(os.path.dirname(log), exist_ok=True)
    with open(log, "w", encoding="utf-8") as f:
        f.write(f"{now}\n====\n{said}")
    return said


def asked(files):
    """What the prover says of each of these files, as many at once as there are processors and memory."""
    try:
        for name in sorted({name for name, _, _ in files}):
            proved.libraries(name)
    except proved.Failed as said:
        sys.exit(f"{said}edits.py: a library is not proved")
    with open("/proc/meminfo") as f:
        room = int(re.search(r"MemAvailable: +(\d+)", f.read()).group(1)) // 3_000_000
    with concurrent.futures.ThreadPoolExecutor(max(1, min(len(os.sched_getaffinity(0)), room))) as pool:
        return dict(zip(files, pool.map(lambda one: said_of(*one), files)))


if __name__ == "__main__":
    how, wrong, parts, crates = (sys.argv[1:] or ["after"])[0], 0, 0, {}
    files = [(path.split("/")[-3], os.path.basename(path)[:-5], read(path)) for path in sorted(glob.glob(f"{HERE}/crates/*/must-fail/*.edit"))]
    files = [one for one in files if re.search(r"^part: ", one[2], re.M)]
    if how not in ("after", "before", "list"):
        how, files = "after", [one for one in files if one[0] in sys.argv[1:]]
    said_by = asked(files) if how == "after" else {}
    for name, label, edit in files:
        crate = crates.setdefault(name, Crate(f"{HERE}/crates/{name}", name))
        said = said_by.get((name, label, edit))
        found, changes = wrong_of(crate, edit, said)
        found = [said] if said and said.startswith("NOT TRIED") else found
        for w in found:
            print(f"{name}/{label}: {w}")
        for part, nodes in changes.items() if how == "list" else []:
            print(f"{name}/{part}: {', '.join(sorted(map(str, nodes)))} ({label})")
        parts, wrong = parts + len(changes), wrong + len(found)
    for name in sorted(BY_NAME) if how == "before" else []:  # where types are spoken of by name alone, some part must need it
        crate = Crate(f"{HERE}/crates/{name}", name, by_name=False)
        if not any(wrong_of(crate, edit, None)[0] for one, label, edit in files if one == name):
            wrong += 1
            print(f"tests/speaks.py: {name} is in BY_NAME, and each of its parts can be refused by itself without: take it off the list")
    if how == "before":
        wanted = read(f"{CASE}/wanted").split("\n")[:-1]
        if tried() != wanted:
            wrong += 1
            print("tests/edits: what must be seen there is not; what is seen:\n" + "\n".join(tried()))
        print(f"{parts} parts in {len(files)} must-fail edits, {len(wanted)} findings in a kept case, {wrong} wrong")
    else:
        print(f"{parts} parts in {len(files)} must-fail edits{', each refused by itself' if how == 'after' else ''}, {wrong} wrong")
    sys.exit(wrong > 0)
