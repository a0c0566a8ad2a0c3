"""Jobs for two ranks that are drawn at random, each from its seed: on few lines, and at the edge of what a header may ask."""

import random

from two_ranks import Header

HEADER = """format = 1
bin = "{bin}"
rows = {rows}
ath = {ath}
eth = {eth}
raaimt = 8
raammt = {raammt}
refresh = "{refresh}"
ecs_every = {scrub}
[timing]
{timing}--- 2 {cycle} {groups}
"""
ABOVE = 65535  # more clocks than a refresh interval may have


def opening_of(draw, interval=None):
    """An opening. Its refresh interval is the least that all checks and reason 30 allow, where none is given."""
    cycle = draw.choice((2, 3, 4, 5))
    said = {
        "bin": "tiny",
        "rows": draw.choice((1, 2, 4)),
        "ath": draw.choice((cycle + 1, cycle + 2, 9)),
        "raammt": draw.choice((8, 16)),
        "refresh": draw.choice(("all", "same")),
        "scrub": draw.choice((0, 1, 3)),
        "cycle": cycle,
        "groups": draw.choice((4, 8)),
    }
    said["eth"] = draw.randint(1, said["ath"])
    timing = {"nABO": 4 + (cycle - 1) * 10 - 1}
    for key, most in (("nRFM", 400), ("nRFMsb", 300), ("nRFC", 200), ("nRFCsb", 60), ("nECS", 200), ("nFAW", 300), ("nMRD", 200)):
        if draw.random() < 0.4:
            timing[key] = draw.randint(1, most)
    timing["nREFI"] = ABOVE if interval is None else interval
    opening = filled(said, timing)
    if interval is None:
        timing["nREFI"] = max(least_intervals(Header(opening)).values())
        opening = filled(said, timing)
    return opening


def filled(said, timing):
    return HEADER.format(**said, timing="".join(f"{key} = {number}\n" for key, number in timing.items())).encode()


def least_intervals(header):
    """The least refresh intervals for both checks on it and for reason 30, by the reason that comes below them."""
    t, busy = header.t, header.most + header.close
    column = max(
        t["nCCD_S"], t["nCCD_L"], t["nCCD_L_WR"], t["nCL"] + 10 - t["nCWL"], t["nCWL"] + 8 + t["nWTR_S"], t["nCWL"] + 8 + t["nWTR_L"]
    )
    closing = busy + 32 * column + t["nABO"] + 12 * busy
    rounds = 4 * (max(t["nRFC"], 4 * t["nRFCsb"]) + 5 * t["nRP"] + t["nECS"])
    return {reason: (double + 1) // 2 for reason, double in ((25, closing), (26, rounds), (30, 16 * busy))}


def drawn_pair(seed):
    """An opening and its trace lines."""
    draw = random.Random(seed)
    opening = opening_of(draw)
    header = Header(opening)
    row = 256 * header.groups
    rows = header.said["rows"]
    places = [draw.randrange(rows) * row + draw.choice((0, 1, header.groups, 4 * header.groups)) for _ in range(draw.choice((2, 5)))]
    waits = (0, 0, 50, header.t["nREFI"] // 2, header.t["nREFI"], 2 * header.t["nREFI"] - draw.randrange(200), 9 * header.t["nREFI"])
    favoured = draw.choice((0.5, 0.9))
    lines = []
    for _ in range(draw.choice((20, 80, 300))):
        rank = int(draw.random() > favoured)
        lines.append(f"{rank} {drawn_line(draw, draw.choice(places), waits)}")
    return opening, lines


def drawn_line(draw, place, waits):
    kind = draw.choices("RWFI", (12, 3, 4, 1))[0]
    if kind == "R":
        return f"R {place}"
    if kind == "W":
        return f"W {place} {draw.randbytes(64).hex()}"
    if kind == "F":
        return f"F {place} {draw.randrange(4)} {draw.randrange(136)}"
    return f"I {draw.choice(waits)}"
