#!/usr/bin/env python3
# letter.py: fills in the foot of docs/LETTER.md: what is signed for, by sums that anybody can make again. The crates must be committed; what is not proved
# yet is proved first (`rt ci`), each program and the library is checked once more for what it assumes, and the archive is built anew (tools/proved.py): for
# x86-64, and the same bytes in every folder. RT names another `rt`.
# letter.py check: the foot is that of this tree's sources, commit and kit, and the letter is one page without a word of ours that it does not explain.
# letter.py proved LOG: it is that of the verdicts in LOG, which is what an `rt ci` said that passed here, and of the archive.
import concurrent.futures, datetime, hashlib, os, re, shutil, subprocess, sys

sys.dont_write_bytecode = True  # no folder of compiled scripts in the tree
import proved as standing

HERE = os.path.abspath(os.path.join(os.path.dirname(os.path.abspath(__file__)), ".."))
LETTER, LINES, WIDE = "docs/LETTER.md", 75, 156
ARCHIVE = "target/staticlib/libkiosk_c.a"
FOOT = re.compile(r"(<!-- filled in by tools/letter.py -->\n)(.*?)(<!-- end -->)", re.S)
# Words of ours that a reader of the letter has not learnt.
OURS = "answers 0|buffer|span|label|round|slice|stand-in|workspace|document 01|refused by number|oracle|axiom|lemma|theorem|crate|contract|allocator|rayon|u32".split("|")
RT = os.environ.get("RT", "rt")
os.chdir(HERE)


def tool(*words):
    done = subprocess.run(words, stdout=subprocess.PIPE, stderr=subprocess.DEVNULL, text=True)
    return done.stdout if done.returncode == 0 else None


def digest(path):
    with open(path, "rb") as f:
        return hashlib.sha256(f.read()).hexdigest()


def sources_sum():
    """As by: find crates.txt crates/*/src crates/*/specs crates/*/proofs -type f | LC_ALL=C sort | xargs sha256sum | sha256sum"""
    return standing.sum_of(sorted(os.listdir("crates")))


PARTS = ["crates.txt", *(f":(glob)crates/*/{part}/**" for part in ("src", "specs", "proofs"))]


def same_sources(commit):
    return subprocess.run(["git", "diff", "--quiet", commit, "--", *PARTS], stderr=subprocess.DEVNULL).returncode == 0


def commit():
    """The last commit that changed what is proved, where it is all committed."""
    for one in (tool("git", "log", "-1", "--format=%H", "--", *PARTS), tool("git", "rev-parse", "HEAD")):
        if one and same_sources(one.strip()):
            return one.strip()
    sys.exit("letter.py: the crates are not committed")


def verdict(said):
    """The last line of a crate's verdict in what the prover said, and the logic's whole sum."""
    last = re.search(r"^logic=\S+.*$", said, re.M)
    logic = re.search(r"^logic \S+: .*\bsum=([0-9a-f]{64})$", said, re.M)
    return last and last.group(0), logic and logic.group(1)


def programs():
    return [name for name in standing.crates() if os.path.exists(f"crates/{name}/src/main.rt")]


def prove_again():
    """What the prover says of each program, and of what C links."""
    names = ["kiosk_export", *programs()]
    for name in names:
        standing.libraries(name)
    with concurrent.futures.ThreadPoolExecutor(2) as pool:
        return dict(zip(names, (said for _, said in pool.map(lambda name: standing.rattle("check", name, f"crates/{name}"), names))))


def axioms(last):
    found = re.search(r"axioms=(\d+)", last)
    return int(found.group(1)) if found else 0


def assumed(said):
    """How many functions of the system each program assumes, as its verdict says; the library by the verdict of its archive."""
    counts = {}
    for name, text in said.items():
        last, _ = verdict(text)
        if not last or not last.startswith("logic=proved"):
            sys.exit(f"letter.py: {name} is not proved: {text[-300:]}")
        counts[name] = axioms(last)
    return f"the library {counts.pop('kiosk_export') or 'none'}; " + ", ".join(f"{name} {count}" for name, count in counts.items())


def archive():
    """The archive's sum; it is made where it is not that of this tree. None where there is no rt to make it."""
    if not shutil.which(RT):
        return None
    with standing.alone():
        standing.archive("kiosk_export", ARCHIVE, "target/native/kiosk_c.bc")
    return digest(ARCHIVE)


def definitions():
    """How much there is to be read, as docs/PROMISES.md counts it (tests/promises.py holds that count)."""
    text = open("docs/PROMISES.md", encoding="utf-8").read()
    found = re.search(r"^\| together \| (\d+) files \| ([\d,]+) \|", text, re.M)
    return f"{found.group(1)} files, {found.group(2)} lines" if found else None


def rows(text):
    return dict(re.findall(r"^\| ([^|]+?) \| ([^|]*?) \|$", FOOT.search(text).group(2), re.M))


def bare(cell):
    return cell.replace("`", "")


def fill():
    kit, named = tool(RT, "version"), commit()
    if not kit:
        sys.exit("letter.py: rt is not at hand")
    if not standing.marked():
        standing.clear()
        if subprocess.run([RT, "ci"], stdout=sys.stderr).returncode != 0:
            sys.exit("letter.py: rt ci did not end well")
        standing.mark()
        standing.marked.cache_clear()
    said = prove_again()
    logic, made = verdict(said["kiosk_export"])[1], archive()
    cells = [
        ("what", "which"),
        ("---", "---"),
        ("the program's text, its definitions and proofs: the sum of the sums of their files", f"`{sources_sum()}`"),
        ("the commit that has that text", f"`{named}`"),
        ("the kit, which proves and builds", f"`{kit.split()[0]}`"),
        ("the sum of the kit's logic", f"`{logic}`"),
        ("the sum of the library as built for x86-64 processors, `libkiosk_c.a`", f"`{made}`"),
        ("our definitions, which a person must read", definitions()),
        ("functions of the system that are assumed", assumed(said)),
        ("the day on which this was filled in", datetime.datetime.now(datetime.timezone.utc).strftime("%Y-%m-%d")),
    ]
    text = open(LETTER, encoding="utf-8").read()
    foot = "".join(f"| {a} | {b} |\n" if a != "---" else "|---|---|\n" for a, b in cells)
    with open(LETTER, "w", encoding="utf-8") as f:
        f.write(FOOT.sub(lambda m: m.group(1) + foot + m.group(3), text))


def starting(found, start):
    return next((v for k, v in found.items() if k.startswith(start)), "")


def other_kit(found, kit):
    return bare(starting(found, "the kit, which")) != kit.split()[0]


def check():
    """What this tree can say of the letter without a proof."""
    text = open(LETTER, encoding="utf-8").read()
    found, wrong = rows(text), []
    if bare(starting(found, "the program's text")) != sources_sum():
        wrong.append("the sum of the text is not this tree's: fill it in anew when the crates are committed (tools/letter.py)")
    named = bare(starting(found, "the commit"))
    if tool("git", "rev-parse", "--git-dir") is None:
        print("no git here: the commit is not looked up")
    elif not re.fullmatch(r"[0-9a-f]{40}", named):
        wrong.append("no commit is named")
    elif tool("git", "cat-file", "-e", named + "^{commit}") is None:
        if tool("git", "rev-parse", "--is-shallow-repository").strip() == "true":
            print(f"a shallow clone: the commit {named} is not looked up")
        else:
            wrong.append(f"there is no commit {named}")
    elif not same_sources(named):
        wrong.append(f"the crates of {named} are others than these")
    kit = tool(RT, "version") if shutil.which(RT) else None
    if kit is None:
        print("no rt here: the kit is not looked up")
    elif not bare(starting(found, "the sum of the kit's logic")).startswith(kit.split()[-1]):
        wrong.append(f"the kit here is {kit.strip()}: another logic. Fill it in anew (tools/letter.py)")
    elif other_kit(found, kit):
        print(f"the kit here is {kit.split()[0]}, of the same logic; the letter is of what {bare(starting(found, 'the kit, which'))} proved and built")
    if starting(found, "our definitions") != definitions():
        wrong.append(f"our definitions are {definitions()}")
    for start, shape in (("the sum of the kit's logic", "[0-9a-f]{64}"), ("the sum of the library", "[0-9a-f]{64}"), ("the day", r"\d{4}-\d\d-\d\d")):
        if not re.fullmatch(shape, bare(starting(found, start))):
            wrong.append(f"it does not name {start}")
    if not re.search(r"the library \w+; \w+ \d+", starting(found, "functions of the system")):
        wrong.append("it does not say how many functions are assumed")
    body = FOOT.sub("", text)
    if len(text.splitlines()) > LINES or max(map(len, body.split("\n"))) > WIDE:
        wrong.append(f"it is longer than a page: {LINES} lines of {WIDE}")
    for word in OURS:
        if re.search(rf"\b{word}s?\b", body, re.I):
            wrong.append(f"a word that it does not explain: {word}")
    known = open("docs/DIFFERENCES.md", encoding="utf-8").read()
    for number in re.findall(r"\d{1,3}(?:,\d{3})+", body):
        if number != "86,400" and number not in known:
            wrong.append(f"a number that docs/DIFFERENCES.md does not have: {number}")
    return wrong


def proved(log):
    """What the verdicts and the archive of this tree say of it. Of a crate that an earlier run proved, from the same files, `rt ci` says no more than that."""
    found, wrong = rows(open(LETTER, encoding="utf-8").read()), []
    listed = dict(re.findall(r"(\w+) (\d+)", starting(found, "functions of the system")))
    text = open(log, encoding="utf-8").read()
    blocks = dict(re.findall(r"^== (\w+)\n(.*?)^rt: \1 proved$", text, re.M | re.S))
    kept = re.findall(r"^rt: (\w+) is kept: an earlier run", text, re.M)
    for name in standing.crates():
        last, logic = verdict(blocks.get(name, ""))
        if name not in kept and (not last or not last.startswith("logic=proved")):
            wrong.append(f"rt ci has no verdict of {name}")
        elif name not in kept and logic != bare(starting(found, "the sum of the kit's logic")):
            wrong.append(f"{name} was proved with the logic {logic}")
        elif last and name in programs() and listed.get(name) != str(axioms(last)):
            wrong.append(f"{name} assumes {axioms(last)} functions of the system, not {listed.get(name)}")
        elif last and name not in programs() and "axioms=" in last:
            wrong.append(f"{name} is no program and assumes something: {last}")
    if sorted(listed) != sorted(programs()):
        wrong.append(f"the programs are {', '.join(programs())}, and it tells of {', '.join(listed)}")
    # what is kept has no verdict in the log: the programs and what C links are asked once more
    again = prove_again()
    if verdict(again["kiosk_export"])[1] != bare(starting(found, "the sum of the kit's logic")):
        wrong.append(f"the logic here is {verdict(again['kiosk_export'])[1]}")
    if starting(found, "functions of the system") != assumed(again):
        wrong.append(f"what is assumed is: {assumed(again)}")
    made, kit = archive(), tool(RT, "version")
    if kit and other_kit(found, kit):
        print("another kit built the archive that is signed for: its sum is not compared")
    elif made is None:
        print("no rt here: the archive is not built, and its sum is not compared")
    elif made != bare(starting(found, "the sum of the library")):
        wrong.append(f"the archive's sum is {made}")
    return wrong


mode = sys.argv[1:] or ["fill"]
if mode == ["fill"]:
    fill()
wrong = proved(mode[1]) if mode[0] == "proved" else check()
for one in wrong:
    print(f"{LETTER}: {one}")
print(f"{LETTER}: {'as this tree is' if not wrong else str(len(wrong)) + ' wrong'}")
sys.exit(len(wrong) > 0)
