"""Jobs that are drawn at random, each from its seed."""

import random

HEADER = """format = 1
bin = "tiny"
rows = {rows}
ath = {ath}
eth = {eth}
raaimt = 8
raammt = 16
refresh = "{refresh}"
ecs_every = {scrub}
{timing}{separator}
"""


def drawn_job(seed):
    """A job on few lines, so that rows are opened often and bits are turned in lines that are read."""
    draw = random.Random(seed)
    groups, cycle = draw.choice(((8, 4), (4, 4), (4, 3)))
    opening = HEADER.format(
        rows=draw.choice((2, 4)),
        ath=5,
        eth=draw.choice((3, 5)),
        refresh=draw.choice(("all", "same")),
        scrub=draw.choice((0, 1, 3)),
        timing="[timing]\nnABO = 23\n" if cycle == 3 else "",
        separator="---" if (groups, cycle) == (8, 4) and draw.random() < 0.5 else f"--- 2 {cycle} {groups}",
    )
    row = 256 * groups
    places = [draw.choice((0, row)) + draw.choice((0, 1, groups)) for _ in range(3)]
    lines = [drawn_line(draw, draw.choice(places)) for _ in range(draw.choice((20, 80)))]
    return (opening + "".join(lines)).encode()


def drawn_line(draw, place):
    kind = draw.choices("RWFI", (8, 3, 8, 2))[0]
    if kind == "R":
        return f"R {place}\n"
    if kind == "W":
        return f"W {place} {draw.randbytes(64).hex()}\n"
    if kind == "F":
        return f"F {place} {draw.randrange(2)} {draw.randrange(136)}\n"
    return f"I {draw.choice((0, 0, 50, 3000))}\n"
