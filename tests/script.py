"""Turns a job and its report into a script: the report's commands, turned bits and end, and the data of each write."""

from collections import deque

ACT = 0b00  # the low two bits of the first word
RD, WR = 0x1D, 0x0D  # the low five bits
ECS = 0x018F  # the whole word


def words_of(fields):
    """The words of a C line."""
    return [int(word, 16) for word in fields[2:]]


class Opened:
    """A job or a report: its opening as it stands, its bank groups, and the fields of its lines."""

    def __init__(self, text):
        lines = text.splitlines(keepends=True)
        front = next(number for number, line in enumerate(lines, 1) if line.startswith(b"---"))
        separator = lines[front - 1].split()
        self.opening = b"".join(lines[:front])
        self.groups = int(separator[3]) if len(separator) > 1 else 8
        self.lines = [line.split() for line in lines[front:]]


class OpenRows:
    """The open row of each bank, and with it the line that an RD reads or a WR writes."""

    def __init__(self, groups):
        self.groups, self.rows = groups, {}

    def taken(self, words):
        """The line that an RD reads or a WR writes; None for any other command."""
        first, second = words[0], words[-1]
        bank, column = (first >> 8 & 7, first >> 6 & 3), second >> 2 & 63
        if first & 3 == ACT:
            self.rows[bank] = first >> 2 & 15 | (second & 0xFFF) << 4
        if first & 31 not in (RD, WR):
            return None
        return ((self.rows[bank] * 64 + column) * 4 + bank[1]) * self.groups + bank[0]


def data_of(job):
    """The data of the W lines of each line, in their order. A replay serves those of one line in this order."""
    data = {}
    for fields in job.lines:
        if fields[:1] == [b"W"]:
            data.setdefault(int(fields[1]), deque()).append(fields[2].lower())
    return data


def script_lines(job, report):
    """The lines of the script, each with the number of the report's line that it comes from."""
    data, rows = data_of(job), OpenRows(report.groups)
    for number, fields in enumerate(report.lines, 1):
        if fields[0] == b"C":
            yield number, b" ".join(fields)
            words = words_of(fields)
            place = rows.taken(words)
            if words[0] & 31 == WR:
                yield number, b"B " + data[place].popleft()
        elif fields[0] == b"F":
            yield number, b" ".join([b"F", *fields[2:]])
        elif fields[0] == b"E":
            yield number, b" ".join(fields)


def script_of(job, report):
    """The script of a job and of the report that a replay wrote of it, in bytes."""
    return report.opening + b"".join(line + b"\n" for _, line in script_lines(job, report))
