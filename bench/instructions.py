"""instructions.py PROGRAM FOLDER [--expect]: counts the instructions and the peak memory of each word, with its files in the folder.

callgrind counts instructions, and counts the same again whatever else the machine does. Each of six traces of 20,000 requests
goes through `replay`, and its report through `audit` and `show`; the made job goes through `gen` and `gen run` too. Each is
counted for the trace without its lines as well, which is the start.

The counts are compared with those of bench/expected.json: the status is 1 where one is more than a tenth above it, where a
trace is not the one that was counted there, or where a word ends with another status than 0. With --expect the file is
written anew. The status is 2 where there is no valgrind.
"""

import hashlib
import json
import os
import random
import re
import shutil
import subprocess
import sys
from pathlib import Path

EXPECTED = Path(__file__).with_name("expected.json")
REQUESTS = 20000
SEED = "1"
GROWTH = 1.1  # a count may be so many times the expected one
LINES = 65536 * 64 * 32  # those of the made job's header
TIGHT = """format = 1
bin = "tiny"
rows = 2
ath = 5
eth = 5
raaimt = 8
raammt = 8
refresh = "same"
ecs_every = 1
"""


def access(draw, line):
    return f"R {line}\n" if draw.random() < 0.5 else written(draw, line)


def written(draw, line):
    return f"W {line} {draw.getrandbits(512):0128x}\n"


def two_rows(draw):
    """Reads and writes of two rows in each of four groups, which raise alerts one after the other."""
    return [access(draw, (draw.randrange(2) * 64 + draw.randrange(64)) * 32 + draw.randrange(4)) for _ in range(REQUESTS)]


def all_lines(draw):
    return [access(draw, draw.randrange(LINES)) for _ in range(REQUESTS)]


def writes(draw):
    return [written(draw, draw.randrange(LINES)) for _ in range(REQUESTS)]


def traces(program):
    """The header and the lines of each trace, by its name."""
    made = subprocess.run([program, "gen", SEED, str(REQUESTS)], capture_output=True, text=True, check=True).stdout
    header, lines = made.split("---\n", 1)
    return {
        "made": (header, [lines]),
        "two rows": (TIGHT, two_rows(random.Random(1))),
        "all lines": (header, all_lines(random.Random(2))),
        "writes": (header, writes(random.Random(3))),
        "32 banks": (header, [f"R {number % 2048}\n" for number in range(REQUESTS)]),
        "one row": (header, [f"R {number % 64 * 32}\n" for number in range(REQUESTS)]),
    }


def counted(program, words, given, taken):
    """The instructions and the peak memory (in kilobytes, 0 where there is no `time`) of the program with the words."""
    count = ["valgrind", "--tool=callgrind", "--callgrind-out-file=/dev/null", program, *words]
    measure = [shutil.which("time") or "env", *(["-f", "%M"] if shutil.which("time") else []), program, *words]
    said = []
    for command in (count, measure):
        with open(given) as source, open(taken, "w") as sink:
            done = subprocess.run(command, stdin=source, stdout=sink, stderr=subprocess.PIPE, text=True)
        if done.returncode != 0:
            sys.exit(f"{' '.join(words)} ends with status {done.returncode}")
        said.append(done.stderr)
    return int(re.search(r"Collected : (\d+)", said[0])[1]), int((said[1].split() or ["0"])[-1])


def measured(program, folder):
    """What each word takes, by its name and that of its trace; and the sums of the traces."""
    found, sums = {}, {}

    def measure(name, words, given, taken=os.devnull):
        found[name] = counted(program, words, given, taken)
        instructions, peak = found[name]
        print(f"{name:<24} {instructions / 1e6:>8.1f} {peak / 1024:>8.1f}", flush=True)

    print(f"{'word and trace':<24} {'millions':>8} {'peak MB':>8}")
    for requests, what in (("0", ", start"), (str(REQUESTS), "")):
        for word in ("gen", "gen run"):
            measure(f"{word}{what}", [*word.split(), SEED, requests], os.devnull)
    for name, (header, lines) in traces(program).items():
        for body, what in (("", ", start"), ("".join(lines), "")):
            text = f"{header}---\n{body}"
            sums[name + what] = hashlib.sha256(text.encode()).hexdigest()
            job, report = folder / "job", folder / "report"
            job.write_text(text)
            measure(f"replay {name}{what}", ["replay"], job, report)
            measure(f"audit {name}{what}", ["audit"], report)
            measure(f"show {name}{what}", ["show"], report)
    return {"traces": sums, "instructions": {name: count for name, (count, _) in found.items()}}


def faults(found):
    """What grew, or is not what was counted before."""
    expected = json.loads(EXPECTED.read_text())
    for name, sum_ in found["traces"].items():
        if expected["traces"].get(name) != sum_:
            yield f"the trace '{name}' is not the one that was counted before"
    for name, count in found["instructions"].items():
        before = expected["instructions"].get(name)
        if before is None:
            yield f"{name} was not counted before"
        elif count > GROWTH * before:
            yield f"{name} takes {count:,} instructions, {count / before:.2f} times as many as expected"


def main():
    program, folder = os.path.abspath(sys.argv[1]), Path(sys.argv[2])
    if not shutil.which("valgrind"):
        print("no instructions were counted: there is no valgrind")
        return 2
    found = measured(program, folder)
    if "--expect" in sys.argv[3:]:
        EXPECTED.write_text(json.dumps(found, indent=1) + "\n")
    failed = list(faults(found))
    for text in failed:
        print(f"  FAILED: {text}")
    print(f"\n{len(failed)} counts failed" if failed else "\nno count grew by more than a tenth")
    return 1 if failed else 0


sys.exit(main())
