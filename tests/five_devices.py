"""A plain model of a rank with a spare: what `spare` writes of a script that breaks no rule, after the words of docs/FORMATS.md.

A codeword is the set of the positions of its set bits. Nothing here is quick, and nothing knows how the program does it.
"""

import re
from collections import defaultdict
from functools import reduce
from operator import xor

from script import ECS, RD, OpenRows, words_of

DEVICES = 5  # the last one is the spare
STATES = ("lost", "fixed", "ok")  # the worst first
CHECKS = {1 << number for number in range(8)}
DATA = [position for position in range(1, 137) if position not in CHECKS]


# ---- Codewords


def syndrome(word):
    return reduce(xor, word, 0)


def codeword(part):
    """The codeword of 16 bytes."""
    word = {position for bit, position in enumerate(DATA) if part[bit // 8] >> bit % 8 & 1}
    return word | {check for check in CHECKS if syndrome(word) & check}


def repaired(word):
    """The codeword with the bit turned that its syndrome names, if it names one."""
    return word ^ {syndrome(word)} if 1 <= syndrome(word) <= 136 else word


def state_of(word):
    return "ok" if syndrome(word) == 0 else "fixed" if syndrome(word) <= 136 else "lost"


def part_of(word):
    """The 16 bytes of a codeword as it stands."""
    return sum(1 << bit for bit, position in enumerate(DATA) if position in word).to_bytes(16, "little")


def mixed(parts):
    """The exclusive-or of some parts."""
    return bytes(reduce(xor, column) for column in zip(*parts))


# ---- Lines


class Line:
    """A line in five devices, from its last write on: the codewords, and how many bits were turned in each since the last rewrite."""

    def __init__(self, written=bytes(64)):
        parts = [written[16 * device : 16 * device + 16] for device in range(4)]
        self.words = [codeword(part) for part in (*parts, mixed(parts))]
        self.written = written
        self.turned = [0] * DEVICES
        self.is_tame = [True] * DEVICES  # no two bits were turned without a rewrite between them

    def turn(self, device, bit):
        self.words[device] = self.words[device] ^ {bit + 1}
        self.turned[device] += 1
        self.is_tame[device] &= self.turned[device] == 1

    def scrub(self):
        self.words = [repaired(word) for word in self.words]
        self.turned = [0] * DEVICES

    def read(self, dead):
        """The bytes and the state that a reading without the dead device finds."""
        parts = [part_of(repaired(word)) for word in self.words]
        if dead < 4:
            parts[dead] = mixed(part for device, part in enumerate(parts) if device != dead)
        states = {state_of(word) for device, word in enumerate(self.words) if device != dead}
        return b"".join(parts[:4]), next(state for state in STATES if state in states)

    def is_promised(self, dead):
        """Whether each live device took few turned bits, so that the bytes of the last write are promised."""
        return all(tame for device, tame in enumerate(self.is_tame) if device != dead)


class Spared:
    """The lines of a script, run with a dead device: what is written of them behind the opening, and what was met."""

    def __init__(self, opening, groups, lines, dead):
        self.dead, self.rows, self.cells = dead, OpenRows(groups), defaultdict(Line)
        self.count = int(re.search(rb"^rows = (\d+)$", opening, re.M)[1]) * 256 * groups
        self.clock, self.scrubs, self.place = b"0", 0, None
        self.written, self.met, self.faults = [], set(), []
        for number, line in enumerate(lines, 1):
            self.take(number, line, line.split())

    def take(self, number, line, fields):
        if fields[0] == b"C":
            self.written.append(line)
            self.clock = fields[1]
            self.command(number, words_of(fields))
        elif fields[0] == b"B":
            self.cells[self.place] = Line(bytes.fromhex(fields[1].decode()))
        elif fields[0] == b"F":
            self.written.append(b" ".join([b"F", self.clock, *fields[1:]]))
            place, device, bit = map(int, fields[1:])
            self.cells[place].turn(device, bit)
        else:
            self.written.append(line)

    def command(self, number, words):
        self.place = self.rows.taken(words)
        if words[0] == ECS:
            self.cells[self.scrubs % self.count].scrub()
            self.scrubs += 1
        elif words[0] & 31 == RD:
            self.answer(number, self.cells[self.place])

    def answer(self, number, line):
        found, state = line.read(self.dead)
        self.written.append(b"D %d %d %s %s" % (number, self.place, found.hex().encode(), state.encode()))
        self.met.add(state)
        if line.is_promised(self.dead):
            self.met |= {"promised"} if all(line.is_tame) else {"promised", "made good"}
            if found != line.written or state == "lost":
                self.faults.append(f"the answer of line {number} is not what is promised")
