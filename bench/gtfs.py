#!/usr/bin/env python3
"""A large feed read by the proved library, plain C, Python's csv and awk, in one run: medians over rounds, as a table.

    gtfs.py PROGRAM LARGE SLOW ROUNDS       gtfs.sh builds the program and makes both feeds

What is counted is the processor's time. Python's readers only give the fields of each line, or number the ids and read the times as well;
awk knows no quotes, and does the same work.
"""
import csv
import os
import statistics
import subprocess
import sys
import time

ROWS = "stop_times.txt"
AWK = r"""BEGIN { FS = "," } NR > 1 { if (!($3 in trip)) trip[$3] = trips++; if (!($6 in stop)) stop[$6] = stops++
    split($4, a, ":"); split($5, d, ":"); n += trip[$3] + stop[$6]
    n += a[1] * 3600 + a[2] * 60 + a[3] + 86400 + d[1] * 3600 + d[2] * 60 + d[3] + 86400 }
    END { print NR, n }"""


def fields(path):
    with open(path, newline="") as f:
        for _ in csv.reader(f):
            pass


def dicts(path):
    with open(path, newline="") as f:
        for _ in csv.DictReader(f):
            pass


def rows(path):
    stops, trips, out = {}, {}, []
    with open(path, newline="") as f:
        reader = csv.reader(f)
        header = next(reader)
        trip, stop, arrival, departure = (header.index(name) for name in ("trip_id", "stop_id", "arrival_time", "departure_time"))

        def moment(text):
            hours, minutes, seconds = text.split(":")
            return int(hours) * 3600 + int(minutes) * 60 + int(seconds) + 86400

        for row in reader:
            t, s = row[trip], row[stop]
            out.append((trips.setdefault(t, len(trips)), stops.setdefault(s, len(stops)), moment(row[arrival]), moment(row[departure])))
    return out


def cpu_of(call, *given):
    before = time.process_time()
    call(*given)
    return (time.process_time() - before) * 1e6


def cpu_of_child(command):
    pid = os.spawnvp(os.P_NOWAIT, command[0], command)
    _, status, used = os.wait4(pid, 0)
    if status != 0:
        raise SystemExit(f"{command[0]}: status {status}")
    return (used.ru_utime + used.ru_stime) * 1e6


def by_program(program, folder, rounds):
    done = subprocess.run([program, folder, rounds], stdout=subprocess.PIPE, text=True)
    if done.returncode != 0:
        raise SystemExit(f"{program}: status {done.returncode}")
    return [float(word) for word in done.stdout.split()]


def main(program, large, slow, rounds):
    path = os.path.join(large, ROWS)
    size, seen = os.path.getsize(path), {}
    awk = subprocess.run(["sh", "-c", "command -v awk"], stdout=subprocess.PIPE, text=True).stdout.strip()

    def note(what, microseconds):
        seen.setdefault(what, []).append(microseconds)

    with open(os.devnull, "w") as nothing:
        for _ in range(int(rounds)):
            ours, plain, ours_written, plain_written = by_program(program, large, "5")
            note("ours, `kiosk_gtfs_read`", ours), note("plain C", plain)
            if awk:
                kept = os.dup(1)
                os.dup2(nothing.fileno(), 1)
                note("awk, which knows no quotes", cpu_of_child([awk, AWK, path]))
                os.dup2(kept, 1), os.close(kept)
            note("Python's csv.reader, fields only", cpu_of(fields, path))
            note("Python's csv.DictReader, fields only", cpu_of(dicts, path))
            note("Python's csv.reader, numbers and times", cpu_of(rows, path))
            note("written by ours", ours_written), note("written by plain C", plain_written)
            ours, plain, *_ = by_program(program, slow, "1")
            note("ours, all stops in one slot", ours), note("plain C, all stops in one slot", plain)
    middle = {what: statistics.median(all_of) for what, all_of in seen.items()}
    ours = middle["ours, `kiosk_gtfs_read`"]
    print("| the feed | milliseconds | MB/s | to ours |\n|---|---|---|---|")
    for what, us in middle.items():
        at, speed = os.path.join(slow, ROWS) if "slot" in what else path, ""
        if "written" not in what:
            speed = f"{os.path.getsize(at) / us:,.0f}"
        print(f"| {what} | {us / 1000:,.1f} | {speed} | {us / ours:,.2f} |")
    print(f"\n{size / 1e6:,.1f} MB of stop_times.txt, 262,144 rows, and its transfers; medians of {rounds} rounds.")


if __name__ == "__main__":
    if len(sys.argv) != 5:
        sys.exit(__doc__)
    main(*sys.argv[1:])
