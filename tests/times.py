#!/usr/bin/env python3
# times.py write: makes docs/CHECK-TIMES.md anew for the crates and edits that there are. Its seconds stay: the older kit gave them, and today's `rt ci` gives none.
# times.py check: holds the page and the tree to the rule that the page states. Nothing of it depends on the machine that it runs on.
# times.py warn LOG SECONDS: says how long `rt ci` took and how much of it was done in this run. It never fails: that differs by machine and by run.
import glob, os, re, sys

PAGE, MOST, FILES = "docs/CHECK-TIMES.md", 25, 2
# The minutes that the gate has, and those after which `rt ci` leaves too few for the rest of it.
WHOLE, LONGEST = 180, 120
# The crates that were there when the rule was made, and may take longer than a new one. The minutes of all bound them.
OLD = "discovery check_calls check_listing allocator explorer_rides raptor_rounds raptor kiosk_c replay telling querying kiosk".split()
# The crates that "Read GTFS files directly" brought: by them it added more minutes than a request may.
FEED = "csv_text numbers names columns feed gtfs_headers gtfs_lines gtfs_rows gtfs_paths gtfs_times gtfs_transfers gtfs_write gtfs_read gtfs_write_times gtfs_write_transfers gtfs_promises gtfs_c gtfs_telling gtfs_again gtfs".split()
# The crates with more files of edits than two: how many, and why. None may have more than is said here.
MORE = {
    "model": (52, "edits of definitions: every worked network runs the whole search, so a refusal does not tell which of two is meant; two of functions have a file; a check takes 5 seconds"),
    "handheld": (15, "edits of definitions: the worked verdicts run all of them, so a refusal does not tell which of two is meant; a check takes 3 seconds"),
    "explorer": (3, "three edits of one file of definitions; a check takes 2 seconds"),
    "shared": (3, "three edits of distance_ok; a check takes 3 seconds"),
    "raptor_reply": (5, "five edits of its one function; a check takes 5 seconds"),
    "allocator": (3, "one edit of the definition by which the contracts of the operations speak, and laws of it speak of what another changes"),
    "path": (4, "two edits of one definition, and three of a file of definitions, of which what is left speaks too; a check takes 9 seconds"),
    "check_listing": (3, "two edits of marked_once, and one of a definition of which it speaks"),
    "check_times": (4, "three edits of time_ok, and one of a definition of which it speaks"),
    "check_tables": (3, "two edits of definitions of which its functions speak; a check takes 8 seconds"),
}
os.chdir(os.path.join(os.path.dirname(os.path.abspath(__file__)), ".."))


def crates():
    return re.findall(r"^(\w+)(?: +staticlib)? *:", open("crates.txt", encoding="utf-8").read(), re.M)


def edits_of(crate):
    """How many edits a crate has, and in how many files."""
    files = [open(p, encoding="utf-8").read() for p in glob.glob(f"crates/{crate}/must-fail/*.edit")]
    return sum(max(1, len(re.findall(r"^part: ", text, re.M))) for text in files), len(files)


def on_page(page):
    """What the page has: the seconds of each crate and of its edits, the pace of its machine, the minutes that the gate may take."""
    rows = re.findall(r"^\| (\w+) \| (\d*) \| \d+ \| \d+ \| (\d*) \|$", page, re.M)
    pace = re.search(r"which takes ([\d.]+) times as long as that of the\s+rule", page)
    may = re.search(r"may take \*\*(\d+)\*\* minutes of one core", page)
    return {n: int(s or 0) for n, s, e in rows}, {n: int(e or 0) for n, s, e in rows}, pace and float(pace.group(1)), may and int(may.group(1))


def written():
    old = open(PAGE, encoding="utf-8").read()
    proved, edits, slower, may = on_page(old)
    seconds, extra = sum(proved.values()), sum(edits.values())
    counts = {name: edits_of(name) for name in crates()}
    rows = "\n".join(f"| {n} | {proved.get(n) or ''} | {counts[n][0]} | {counts[n][1]} | {edits.get(n) or ''} |" for n in crates())
    more = "\n".join(f"| `{n}` | {count} | {why} |" for n, (count, why) in MORE.items())
    page = f"""# Check times

The seconds are those of the kit before today's, in which each crate was proved first: `rt ci` gave them for each crate on 2 cores (Arm), two crates side by
side, on a machine which takes {slower:.2f} times as long as that of the rule. Today's `rt ci` gives no seconds. There a file of must-fail edits cost its crate's whole check
again: those that it measured took {extra // 60} minutes of one core, the crates {seconds // 60}. Today there are {sum(c[0] for c in counts.values())} edits, in {sum(c[1] for c in counts.values())} files.
`tests/times.py write` makes this page.
[README.md](../README.md) leads to the other pages; [BENCHMARKS.md](BENCHMARKS.md) has the times of the search itself.

| crate | seconds | must-fail edits | files of them | seconds of them all |
|---|---|---|---|---|
{rows}

With that kit the gate, `./test` in a fresh clone, took 32 minutes on that machine. Today it must end within {WHOLE} minutes. Every crate is
proved once, by `rt ci`, or was proved by an earlier run of it on the same machine from the same files; what is then compared with the Rust, plain C and bad
input is what was proved.

## The rule

Its seconds and minutes are of the older kit; its counts of files hold as they stand.

1. A new crate takes at most {MOST} seconds on the machine of the rule, which was x86-64. The crates that were there before may take longer: {', '.join(f'`{n}`' for n in OLD)}.
2. The edits of a crate stand in at most two files, `parts.edit` and `parts_2.edit`, each edit under a line `part: NAME`. A refusal of its own must tell each
   part from the others of its file (`tests/edits.py`): so a file has at most one edit of a function, and an edit of a definition only beside functions
   that do not speak of it. The crates that have more files, and may not have more than this:

| crate | files | why |
|---|---|---|
{more}

3. The crates and the edits may take **{may}** minutes of one core of that machine, as the table above counts them. A request may add 2 at most, by hand; where a
   page made anew comes to less, the number goes down with it. After all fourteen requests the gate is to stay under 45 minutes on two cores. "Read GTFS
   files directly" (02) added more, and is the exception: it brought a subject of its own, {len(FEED)} crates with their edits that share nothing with the search,
   and nothing that was there takes longer. Before it the number was 33. "Check journeys from the handhelds" (02) added 3, one more than it may: thirteen crates,
   six of them for the program `checkjourney`, with their edits, and a section of the tables with its rule. Before it the number was 41.

Seconds are not the same on every machine: one Arm (Neoverse-N1) took 1.58 times as long as the x86-64 of the rule, another (Neoverse-V1) as long, and
other work on a machine makes it more. So `tests/times.py check`, which the gate runs first, holds the rule over this page and the tree's files, and not over
its own clock. After `rt ci` the gate says how long that took and how much of it was done in this run, and goes on.
"""
    with open(PAGE, "w", encoding="utf-8") as f:
        f.write(page)
    print(f"{len(counts)} crates, {sum(c[1] for c in counts.values())} files of edits")


def check():
    wrong = []
    proved, edits, slower, may = on_page(open(PAGE, encoding="utf-8").read())
    if slower is None:
        wrong.append(f"{PAGE}: it does not say how long its machine takes")
        slower = 1
    for name in crates():
        files = edits_of(name)[1]
        most = MORE.get(name, (FILES, ""))[0]
        if files > most:
            wrong.append(f"{name} has {files} files of edits, and may have {most}: put those of single functions together (part: NAME)")
        elif name in MORE and files < most:
            wrong.append(f"tests/times.py: {name} has {files} files of edits, not {most}: say so, or take it off the list")
        if proved.get(name, 0) > MOST * slower and name not in OLD:
            wrong.append(f"{PAGE}: {name} takes {proved[name]} seconds, and a new crate may take {MOST * slower:.0f}")
    wrong += [f"tests/times.py: there is no crate {name}" for name in sorted({*OLD, *MORE, *FEED} - set(crates()))]
    total = (sum(proved.values()) + sum(edits.values())) / 60 / slower
    if may is None:
        wrong.append(f"{PAGE}: it does not say how many minutes the gate may take")
    elif total > may:
        wrong.append(f"{PAGE}: the crates and edits take {total:.1f} minutes of one core, and may take {may}")
    for w in wrong:
        print(w)
    print(f"check times: {total:.1f} minutes of one core of {may}, {len(wrong)} wrong")
    return len(wrong) > 0


def warn(log, seconds):
    last = re.findall(r"^rt: ok; .*$", log, re.M)
    share = re.findall(r"done in this run: (.*?);", last[-1]) if last else []
    print(f"check times: rt ci took {seconds // 60} minutes and {seconds % 60} seconds; " + (f"done in this run: {share[0]}" if share else "it did all proofs and edits"))
    if seconds > 60 * LONGEST:
        print(f"rt ci took longer than {LONGEST} minutes, and the gate has {WHOLE} for all that it does")


if __name__ == "__main__":
    if sys.argv[1:] == ["check"]:
        sys.exit(check())
    elif sys.argv[1:] == ["write"]:
        written()
    else:
        warn(open(sys.argv[2], encoding="utf-8").read(), int(sys.argv[3]))
