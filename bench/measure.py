"""measure.py PROGRAM FOLDER: times the program, with its files in the folder.

Made jobs: `gen`, `gen run`, `replay`, `audit` and `show` for jobs of 1,000 to 100,000 requests. Beside the times it is
checked that `gen` and `gen run` write the same at each run, that `gen run` writes the last lines of what `replay` writes,
that its reads and writes are as many as the requests, and that `audit` finds the report right.

Rows: one trace of random requests to 16 rows, `replay` with a header of 16 rows and with one of 65,536. After the start,
which makes the counters of all rows, a request must take the same time, within a fifth.

Made logs: `audit` for banks of 16 rows and of 65,536, whose rows are drawn from all that there are. What the second takes
longer is the start, and memory: its counters do not fit into a processor's cache.

The status is 1 where a check fails.
"""

import os
import random
import shutil
import subprocess
import sys
import time
from dataclasses import dataclass

PROGRAM, FOLDER = sys.argv[1:]
SEED = 1
REQUESTS = (1000, 5000, 10000, 20000, 100000)
LOG_ROWS = (16, 65536)
ROWS_REQUESTS = 100000
ACTIVATIONS = (1000, 10000, 100000)
LAST_LINES = 15  # fourteen S lines and the E line
TIME = shutil.which("time")

failed = []


@dataclass
class Run:
    status: int
    seconds: float
    peak: str  # in megabytes


def run(words, given, taken):
    """Runs the program with the words on the file `given`, into the file `taken`; the best of a few runs."""
    best, peak, start = 1e9, "-", time.perf_counter()
    while True:
        note = f"{FOLDER}/peak"
        command = [TIME, "-f", "%M", "-o", note] if TIME else []
        with open(given) as source, open(taken, "w") as sink:
            began = time.perf_counter()
            done = subprocess.run(command + [PROGRAM, *words], stdin=source, stdout=sink, stderr=subprocess.DEVNULL)
            best = min(best, time.perf_counter() - began)
        if TIME:
            peak = f"{int(open(note).read().split()[-1]) / 1024:.1f}"
        if time.perf_counter() - start > 1:
            return Run(done.returncode, best, peak)


def check(holds, text):
    if not holds:
        failed.append(text)
        print(f"  FAILED: {text}")


def lines(name):
    with open(name) as file:
        return file.read().splitlines()


def row(word, requests, count, unit, done):
    rate = f"{count / done.seconds:>12,.0f} {unit}/s"
    print(f"{word:>8} {requests:>9,} {done.seconds:>10.4f} {rate:<24} {done.peak:>8} {done.status:>7}", flush=True)


def made_job(requests):
    job, again, report, ending, verdict, shown = (
        f"{FOLDER}/{name}" for name in ("job", "again", "report", "ending", "verdict", "shown")
    )
    numbers = [str(SEED), str(requests)]
    done = run(["gen", *numbers], os.devnull, job)
    row("gen", requests, requests, "requests", done)
    check(done.status == 0, f"gen of {requests} requests ends with status {done.status}")
    run(["gen", *numbers], os.devnull, again)
    check(lines(job) == lines(again), "gen writes the same at each run")

    done = run(["gen", "run", *numbers], os.devnull, ending)
    row("gen run", requests, requests, "requests", done)
    made = done.status == 0
    check(made, f"gen run of {requests} requests ends with status {done.status}")
    if made:
        run(["gen", "run", *numbers], os.devnull, again)
        check(lines(ending) == lines(again), "gen run writes the same at each run")

    done = run(["replay"], job, report)
    row("replay", requests, requests, "requests", done)
    check(done.status == 0, f"replay of {requests} requests ends with status {done.status}")
    told = lines(report)
    if made:
        last = lines(ending)
        check(last == told[-LAST_LINES:], "gen run writes the last lines of the report")
        counts = dict(line.split()[1:] for line in last if line.startswith("S "))
        check(int(counts["rd"]) + int(counts["wr"]) == requests, "the reads and writes are as many as the requests")

    done = run(["audit"], report, verdict)
    row("audit", requests, len(told), "lines", done)
    check(done.status == 0 and lines(verdict) == ["A ok"], f"the verdict is {lines(verdict)}")
    done = run(["show"], report, shown)
    row("show", requests, len(told), "lines", done)
    check(done.status == 0, f"show ends with status {done.status}")


def write_job(name, rows, requests):
    """A job of random reads and writes of lines in the first 16 rows, under a header with so many rows."""
    draw = random.Random(5)
    with open(name, "w") as out:
        out.write(f'format = 1\nbin = "tiny"\nrows = {rows}\nath = 1000\neth = 500\nraaimt = 32\nraammt = 64\n')
        out.write('refresh = "all"\necs_every = 0\n---\n')
        for _ in range(requests):
            line = draw.randrange(LOG_ROWS[0] * 2048)
            out.write(f"R {line}\n" if draw.random() < 0.5 else f"W {line} {'5a' * 64}\n")


def same_trace(requests):
    """Returns the seconds per request after the start, for each number of rows."""
    job, report, each = f"{FOLDER}/job", f"{FOLDER}/report", []
    for rows in LOG_ROWS:
        write_job(job, rows, 0)
        start = run(["replay"], job, report)
        write_job(job, rows, requests)
        done = run(["replay"], job, report)
        check(done.status == 0, f"replay with {rows} rows ends with status {done.status}")
        each.append((done.seconds - start.seconds) / requests)
        print(f"{rows:>9,} rows: {each[-1] * 1e6:.2f} microseconds per request, and {start.seconds * 1e3:.1f} ms for the start")
    return each


def write_log(name, rows, activations):
    """A legal log: eight register writes, and then, bank after bank, ACT, RD and PREpb of rows that are drawn at random,
    with a refresh of all banks in each interval. Returns the number of its lines after the opening."""
    ath, eth, raaimt, raammt = 1000, 1000, 255, 1023
    settings = [("rows", rows), ("ath", ath), ("eth", eth), ("raaimt", raaimt), ("raammt", raammt)]
    bits = (ath >> 8) | (eth >> 8) << 2 | (raammt >> 8) << 4
    values = [(rows - 1) & 255, (rows - 1) >> 8, ath & 255, eth & 255, bits, raaimt, raammt & 255, 0]
    clock, refreshes, count = 64, 0, 8
    draw = random.Random(7)
    with open(name, "w") as out:
        out.write('format = 1\nbin = "tiny"\n')
        for key, value in settings:
            out.write(f"{key} = {value}\n")
        out.write('refresh = "all"\necs_every = 0\n---\n')
        for number, value in enumerate(values):
            out.write(f"C {4 * number} {(64 + number) << 5 | 5:04x} {value:04x}\n")
        for number in range(activations):
            if clock // 1000 > refreshes:
                out.write(f"C {clock} 0213\n")
                refreshes, clock, count = refreshes + 1, clock + 24, count + 1
            drawn = draw.randrange(rows)
            place = number // 8 % 4 << 6 | number % 8 << 8
            out.write(f"C {clock} {(drawn & 15) << 2 | place:04x} {drawn >> 4:04x}\n")
            out.write(f"C {clock + 3} {0x3d | place:04x} 0400\n")
            out.write(f"C {clock + 6} {0x1b | place:04x}\n")
            clock, count = clock + 12, count + 3
        out.write(f"E {clock + 8}\n")
    return count + 1


def made_log(rows, activations):
    log, verdict = f"{FOLDER}/log", f"{FOLDER}/verdict"
    count = write_log(log, rows, activations)
    done = run(["audit"], log, verdict)
    row("audit", rows, count, "lines", done)
    check(lines(verdict) == ["A ok"], f"the verdict is {lines(verdict)}")


print(f"Made jobs of seed {SEED}")
print(f"{'word':>8} {'requests':>9} {'seconds':>10} {'':<24} {'peak MB':>8} {'status':>7}")
for requests in REQUESTS:
    made_job(requests)
print(f"\nRows: one trace of {ROWS_REQUESTS:,} requests to 16 rows")
few, many = same_trace(ROWS_REQUESTS)
check(many < 1.2 * few and few < 1.2 * many, "a request takes the same time for 16 rows and for 65,536, within a fifth")
print("\nMade logs")
print(f"{'word':>8} {'rows':>9} {'seconds':>10} {'':<24} {'peak MB':>8} {'status':>7}")
for rows in LOG_ROWS:
    for activations in ACTIVATIONS:
        made_log(rows, activations)
print(f"\n{len(failed)} checks failed" if failed else "\nall checks hold")
sys.exit(1 if failed else 0)
