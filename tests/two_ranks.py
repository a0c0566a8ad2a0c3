"""A plain model of `pair`: two ranks on one bus, after the words of docs/RULES.md, docs/POLICY.md and docs/FORMATS.md.

It says of a job what its report is, byte by byte. Nothing here is quick: each clock is found by looking back over the commands of
both ranks, and nothing knows how the program does it. A line of memory is that of tests/five_devices.py.
"""

import tomllib
from collections import Counter, defaultdict

from five_devices import Line, repaired, syndrome

BINS = {
    "4800-prac": "40 38 39 87 39 125 8 12 32 8 12 48 6 24 12 24 708 312 839 456 9375 432 34 264",
    "tiny": "6 4 3 4 6 10 2 3 10 8 10 12 2 4 3 5 20 12 24 16 1000 32 4 14",
}
KEYS = (
    "nCL nCWL nRCD nRP nRAS nRC nRRD_S nRRD_L nFAW nCCD_S nCCD_L nCCD_L_WR nWTR_S nWTR_L nRTP nWR nRFC nRFCsb nRFM nRFMsb "
    "nREFI nABO nMRD nECS"
).split()
NO_SPARE = 4  # the fifth device is not read

# ---- Commands: a kind, a group, a bank address and a number (the row, the column, or the register and its value)

TWO_WORDS = {"ACT", "RD", "WR", "MRW"}
OF_A_BANK = {"ACT", "RD", "WR", "PREpb"}
OF_AN_ADDRESS = {"PREsb", "REFsb", "RFMsb"}
PRECHARGES = {"PREpb", "PREsb", "PREab"}
NEEDS_CLOSED = {"ACT", "REFab", "REFsb", "RFMab", "RFMsb", "ECS", "MRW"}
BLOCKS = {"REFab": "nRFC", "REFsb": "nRFCsb", "RFMab": "nRFM", "RFMsb": "nRFMsb", "ECS": "nECS", "MRW": "nMRD"}


def meet(first, second):
    """Whether some bank is covered by both."""
    if "NOP" in (first[0], second[0]):
        return False
    kinds = [OF_A_BANK, OF_AN_ADDRESS]
    same_address = first[2] == second[2]
    if all(command[0] in OF_A_BANK for command in (first, second)):
        return same_address and first[1] == second[1]
    if all(any(command[0] in kind for kind in kinds) for command in (first, second)):
        return same_address
    return True


def words_of(command):
    """The words of a command, in hexadecimal digits."""
    kind, group, address, number = command
    bank = address << 6 | group << 8
    words = {
        "ACT": [(number & 15) << 2 | bank, number >> 4],
        "RD": [0x3D | bank, number << 2 | 1 << 10],
        "WR": [0x2D | bank, number << 2 | 3 << 10],
        "MRW": [0x05 | (number >> 8) << 5, number & 255],
        "PREpb": [0x1B | bank],
        "PREsb": [0x40B | address << 6],
        "PREab": [0x0B],
        "REFab": [0x213],
        "REFsb": [0x613 | address << 6],
        "RFMab": [0x13],
        "RFMsb": [0x413 | address << 6],
        "ECS": [0x18F],
    }[kind]
    return " ".join(f"{word:04x}" for word in words)


# ---- Headers


class Header:
    """The numbers of an accepted header."""

    def __init__(self, opening):
        text = opening.decode()
        *lines, separator = text.splitlines()
        said = tomllib.loads("\n".join(lines))
        self.opening = text
        self.groups = int(separator.split()[3]) if separator != "---" else 8
        self.said = said
        self.t = dict(zip(KEYS, map(int, BINS[said["bin"]].split()))) | said.get("timing", {})
        self.lines = said["rows"] * 256 * self.groups
        self.most = max(self.gaps())
        t = self.t
        self.close = t["nRCD"] + t["nRAS"] + t["nCWL"] + 8 + t["nWR"] + t["nRTP"] + t["nRP"]

    def gaps(self):
        t = self.t
        turns = (t["nCL"] + 10 - t["nCWL"], t["nCWL"] + 8 + t["nWTR_S"], t["nCWL"] + 8 + t["nWTR_L"])
        closes = (t["nRTP"], t["nCWL"] + 8 + t["nWR"], t["nRP"], t["nRAS"], t["nRCD"], t["nRC"])
        return (
            2,
            t["nFAW"],
            *(t[key] for key in ("nRRD_S", "nRRD_L", "nCCD_S", "nCCD_L", "nCCD_L_WR", *BLOCKS.values())),
            *turns,
            *closes,
        )

    def has_time(self):
        return 16 * (self.most + self.close) <= 2 * self.t["nREFI"]

    def gap(self, first, second):
        """The greatest entry of the gap table that applies."""
        t, a, b = self.t, first[0], second[0]
        same_group, meets = first[1] == second[1], meet(first, second)
        found = [2 if a in TWO_WORDS else 1]
        if (a, b) == ("ACT", "ACT"):
            found += [t["nRRD_S"], t["nRRD_L"] * same_group, t["nRC"] * meets]
        if a == "ACT" and b in ("RD", "WR"):
            found.append(t["nRCD"] * meets)
        if a == "ACT" and b in PRECHARGES:
            found.append(t["nRAS"] * meets)
        if (a, b) == ("RD", "RD"):
            found += [t["nCCD_S"], t["nCCD_L"] * same_group]
        if (a, b) == ("WR", "WR"):
            found += [t["nCCD_S"], t["nCCD_L_WR"] * same_group]
        if (a, b) == ("RD", "WR"):
            found.append(t["nCL"] + 10 - t["nCWL"])
        if (a, b) == ("WR", "RD"):
            found += [t["nCWL"] + 8 + t["nWTR_S"], (t["nCWL"] + 8 + t["nWTR_L"]) * same_group]
        if b in PRECHARGES and a in ("RD", "WR"):
            found.append((t["nRTP"] if a == "RD" else t["nCWL"] + 8 + t["nWR"]) * meets)
        if a in PRECHARGES and b in NEEDS_CLOSED:
            found.append(t["nRP"] * meets)
        if a in BLOCKS and b != "NOP":
            everywhere = a not in OF_AN_ADDRESS
            found.append(t[BLOCKS[a]] * (everywhere or meets))
        return max(found)

    def register_writes(self):
        said = self.said
        high = said["ath"] >> 8 | said["eth"] >> 8 << 2 | said["raammt"] >> 8 << 4 | (said["refresh"] == "same") << 6
        values = (
            said["rows"] - 1 & 255,
            said["rows"] - 1 >> 8,
            said["ath"] & 255,
            said["eth"] & 255,
            high,
            said["raaimt"],
            said["raammt"] & 255,
            said["ecs_every"],
        )
        return [("MRW", 0, 0, 64 + index << 8 | value) for index, value in enumerate(values)]

    def place(self, line):
        """Group, bank address, column and row of a line."""
        rest, group = divmod(line, self.groups)
        rest, address = divmod(rest, 4)
        row, column = divmod(rest, 64)
        return group, address, column, row


def bus_gap(first, second):
    """How much later a command of the other rank comes, at the least."""
    bursts = {("RD", "RD"): 10, ("WR", "WR"): 10, ("RD", "WR"): 12, ("WR", "RD"): 8}
    return max(2 if first[0] in TWO_WORDS else 1, bursts.get((first[0], second[0]), 0))


# ---- A rank


class Rank:
    """What the log of a rank leaves, and its cells."""

    def __init__(self, header):
        self.header, self.log = header, []
        self.refs, self.scrubs, self.counts = [0] * 4, 0, Counter()
        self.raa = Counter()  # by bank
        self.closed, self.acts = defaultdict(Counter), Counter()  # by bank and row
        self.last, self.opened, self.alert = {}, {}, None
        self.cells, self.peak = defaultdict(Line), 0
        self.found = self.lost = self.worst = self.visit = 0

    def banks(self, command):
        kind, group, address, _ = command
        if kind in OF_A_BANK:
            return [(group, address)]
        addresses = [address] if kind in OF_AN_ADDRESS else range(4)
        return [(group, address) for group in range(self.header.groups) for address in addresses]

    def take(self, clock, command):
        kind, _, _, number = command
        said = self.header.said
        self.log.append((clock, command))
        name = "pre" if kind in PRECHARGES else kind.lower()
        self.counts[name] += 1
        if kind == "ECS":
            self.scrub()
        if kind in ("REFab", "REFsb"):
            for address in range(4) if kind == "REFab" else [command[2]]:
                self.refs[address] += 1
        for bank in self.banks(command):
            if kind == "ACT":
                self.opened[bank] = number
                self.raa[bank] += 1
                self.acts[bank, number] += 1
                self.peak = max(self.peak, self.acts[bank, number])
            elif kind in ("RFMab", "RFMsb"):
                self.raa[bank] = max(0, self.raa[bank] - said["raaimt"])
                self.mitigate(bank)
            elif kind in ("REFab", "REFsb"):
                self.raa[bank] = max(0, self.raa[bank] - said["raaimt"] // 2)
        if kind in PRECHARGES:
            self.close(clock, command)
        if kind == "RFMab":
            self.alert = None

    def close(self, clock, command):
        some = False
        for bank in self.banks(command):
            row = self.opened.pop(bank, None)
            if row is not None:
                some = True
                self.closed[bank][row] += 1
                self.last[bank, row] = len(self.log)
        if some and self.alert is None and any(max(rows.values()) >= self.header.said["ath"] for rows in self.closed.values()):
            self.alert = clock
            self.counts["alert"] += 1

    def mitigate(self, bank):
        rows = self.closed[bank]
        if not rows:
            del self.closed[bank]
            return
        tracked = min(rows, key=lambda row: (-rows[row], self.last[bank, row], row))
        if rows[tracked] >= self.header.said["eth"]:
            rows[tracked] = 0
            self.last[bank, tracked] = len(self.log)
            self.acts[bank, tracked] = 0

    def scrub(self):
        line = self.scrubs % self.header.lines
        if self.scrubs % (256 * self.header.groups) == 0:
            self.visit = 0
        cells = self.cells[line]
        faults = [syndrome(word) for word in cells.words[:4]]
        fixed, lost = sum(1 <= fault <= 136 for fault in faults), sum(fault > 136 for fault in faults)
        self.found, self.lost, self.visit = self.found + fixed, self.lost + lost, self.visit + fixed + lost
        self.worst = max(self.worst, self.visit)
        cells.scrub()
        self.scrubs += 1

    # ---- What it needs

    def next_due(self):
        return (min(self.refs) + 2) * self.header.t["nREFI"]

    def needed(self, now):
        """The ECS, refresh or RFMsb that stands first, if one is needed."""
        said = self.header.said
        if said["ecs_every"] and self.scrubs < self.refs[0] // said["ecs_every"]:
            return ("ECS", 0, 0, 0)
        if self.next_due() <= now:
            return ("REFab", 0, 0, 0) if said["refresh"] == "all" else ("REFsb", 0, self.refs.index(min(self.refs)), 0)
        wanting = [bank[1] for bank, count in self.raa.items() if count >= said["raaimt"]]
        return ("RFMsb", 0, min(wanting), 0) if wanting else None

    def stats(self):
        names = "act rd wr pre refab refsb rfmab rfmsb ecs alert".split()
        return [f"S {name} {self.counts[name]}" for name in names] + [
            f"S peak {self.peak}",
            f"S found {self.found}",
            f"S lost {self.lost}",
            f"S worst {self.worst}",
        ]


# ---- Both


class Pair:
    """A job for two ranks, served: what is written, and what was met on the way."""

    def __init__(self, opening, lines):
        self.header = Header(opening)
        self.ranks = (Rank(self.header), Rank(self.header))
        self.now, self.written, self.met, self.reads = 0, [], Counter(), []
        for number in (0, 1):
            for write in self.header.register_writes():
                self.issue(number, write)
        for number, line in enumerate(lines, 1):
            self.service()
            self.carry_out(number, line.split())
        self.service()
        for number, rank in enumerate(self.ranks):
            self.written += [f"{number} {line}" for line in (*rank.stats(), f"E {self.now}")]

    def report(self, refused=()):
        """The report; with the number and the reason of a refused line it ends with them."""
        last = [f"X {refused[0]} {refused[1]}"] if refused else []
        return (self.header.opening + "".join(f"{line}\n" for line in self.written + last)).encode()

    def issue(self, number, command):
        clock = self.earliest(number, command)
        self.ranks[number].take(clock, command)
        self.written.append(f"{number} C {clock} {words_of(command)}")
        self.met[command[0]] += 1
        self.now = clock + 1

    def earliest(self, number, command):
        own, other = self.ranks[number], self.ranks[1 - number]
        clock, far = self.now, max(self.header.most, 12)
        for log, gap in ((own.log, self.header.gap), (other.log, bus_gap)):
            for place in reversed(log):
                if place[0] + far < self.now:
                    break
                clock = max(clock, place[0] + gap(place[1], command))
        acts = [place[0] for place in own.log[-200:] if place[1][0] == "ACT"]
        if command[0] == "ACT" and len(acts) >= 4:
            clock = max(clock, acts[-4] + self.header.t["nFAW"])
        return clock

    def service(self):
        both = [rank.next_due() <= self.now for rank in self.ranks]
        self.met["due in both"] += all(both)
        for number, rank in enumerate(self.ranks):
            if rank.alert is not None:
                self.met[f"alert in {number}"] += 1
                self.issue(number, ("RFMab", 0, 0, 0))
        for number, rank in enumerate(self.ranks):
            while (command := rank.needed(self.now)) is not None:
                self.issue(number, command)

    def carry_out(self, number, fields):
        if fields[1] == "I":
            self.wait(int(fields[2]))
            return
        rank, place = int(fields[0]), int(fields[2])
        if fields[1] == "F":
            device, bit = map(int, fields[3:])
            self.ranks[rank].cells[place].turn(device, bit)
            self.written.append(f"{rank} F {self.ranks[rank].log[-1][0]} {place} {device} {bit}")
        else:
            self.request(number, rank, place, fields)

    def request(self, number, rank, place, fields):
        group, address, column, row = self.header.place(place)
        self.issue(rank, ("ACT", group, address, row))
        cells = self.ranks[rank].cells
        if fields[1] == "W":
            self.issue(rank, ("WR", group, address, column))
            cells[place] = Line(bytes.fromhex(fields[3]))
        else:
            self.issue(rank, ("RD", group, address, column))
            found, state = cells[place].read(NO_SPARE)
            self.written.append(f"{rank} D {number} {place} {found.hex()} {state}")
            self.met[state] += 1
            self.reads.append((rank, place, found, state, cells[place].is_promised(NO_SPARE), cells[place].written))
        self.issue(rank, ("PREpb", group, address, 0))

    def wait(self, clocks):
        target = self.now + clocks
        self.service()
        while (due := min(rank.next_due() for rank in self.ranks)) <= target:
            self.now = max(self.now, due)
            self.service()
        self.now = max(self.now, target)
