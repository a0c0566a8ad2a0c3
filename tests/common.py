"""What the scripts of tests share: where the program is, and the count of what passed and failed."""

import os
import subprocess
import sys

TOP = os.path.dirname(os.path.dirname(os.path.realpath(__file__)))
EXAMPLES = f"{TOP}/examples"
NOTHING_TRIED = 2  # the status of a script that could not begin


def give_up(text):
    print(f"{os.path.basename(sys.argv[0])}: {text}", file=sys.stderr)
    sys.exit(NOTHING_TRIED)


def program(given):
    """The program at the path given; without one the tree's own, which `./ddr` builds where it is not built."""
    if given is None:
        with open(f"{EXAMPLES}/empty.job") as job:
            if subprocess.run([f"{TOP}/ddr", "replay"], stdin=job, stdout=subprocess.DEVNULL).returncode != 0:
                give_up("there is no program to try")
        given = f"{TOP}/crates/ddr_cli/out/ddr_cli"
    if not os.access(given, os.X_OK) or os.path.isdir(given):
        give_up(f"{given} is no program")
    return os.path.abspath(given)


def ended(code):
    """A status in words, with a signal by its number."""
    return f"signal {-code}" if code < 0 else f"status {code}"


class Tally:
    """Counts what passed and failed; the failures of a line stand below it."""

    SHOWN = 5

    def __init__(self):
        self.passed = self.failed = 0

    def line(self, text, tried, faults):
        """A line for so many trials, of which these are the faults."""
        self.passed += tried - len(faults)
        self.failed += len(faults)
        print(text if not faults else f"{text}: {len(faults)} FAILED", flush=True)
        for fault in faults[: self.SHOWN]:
            print(f"    {fault}")

    def end(self):
        print(f"{self.passed} passed, {self.failed} failed")
        sys.exit(1 if self.failed else 0)
