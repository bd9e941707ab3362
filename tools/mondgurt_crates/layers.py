"""Where the crates stand: a row above all that they name, with few crossings, and near what they are joined to."""

from __future__ import annotations

from statistics import mean
from typing import NamedTuple

from .crates import Names


class Spot(NamedTuple):
    """A crate in its row, or the place in a row where a line passes through on its way to a lower crate."""

    row: int
    name: str
    passing: tuple[str, str] = ("", "")


Step = tuple[Spot, Spot]
Line = list[Spot]
Places = dict[Spot, float]

# How wide a crate and a passing line are, in units of a crate's width.
CRATE, PASSING = 1.0, 0.16
SWEEPS = 200


def heights(names: Names) -> dict[str, int]:
    """The row of each crate, from 0: one above the highest that it names."""
    rows: dict[str, int] = {}
    for name, others in names.items():
        rows[name] = 1 + max((rows[other] for other in others), default=-1)
    return rows


def lines(names: Names, rows: dict[str, int]) -> list[Line]:
    """For each crate and each that it names, the spots from the upper to the lower."""
    drawn = []
    for upper, others in names.items():
        for lower in sorted(others):
            between = [Spot(row, "", (upper, lower)) for row in range(rows[upper] - 1, rows[lower], -1)]
            drawn.append([Spot(rows[upper], upper), *between, Spot(rows[lower], lower)])
    return drawn


def width(spot: Spot) -> float:
    """How wide a spot is."""
    return CRATE if spot.name else PASSING


def crossings(order: dict[Spot, int], steps: list[Step]) -> int:
    """How many pairs of steps between the same two rows cross."""
    ends = [(upper.row, order[upper], order[lower]) for upper, lower in steps]
    return sum(one[0] == other[0] and (one[1] - other[1]) * (one[2] - other[2]) < 0 for one in ends for other in ends) // 2


def spread(row: list[Spot], wanted: Places) -> Places:
    """Places in this order that are not too near and, by squares, as near as can be to those that are wanted."""
    offsets, at = [], 0.0
    for before, spot in zip([row[0], *row], row):
        at += 0.0 if spot is row[0] else (width(before) + width(spot)) / 2
        offsets.append(at)
    blocks: list[tuple[float, int]] = []
    for spot, offset in zip(row, offsets):
        block = (wanted[spot] - offset, 1)
        while blocks and blocks[-1][0] > block[0]:
            value, count = blocks.pop()
            block = ((value * count + block[0] * block[1]) / (count + block[1]), count + block[1])
        blocks.append(block)
    values = [value for value, count in blocks for _ in range(count)]
    return {spot: value + offset for spot, value, offset in zip(row, values, offsets)}


def joined_by(spots: list[Spot], steps: list[Step]) -> dict[Spot, list[Spot]]:
    """What each spot is joined to, in the rows beside its own."""
    joined: dict[Spot, list[Spot]] = {spot: [] for spot in spots}
    for upper, lower in steps:
        joined[upper].append(lower)
        joined[lower].append(upper)
    return joined


def ordered(table: list[list[Spot]], steps: list[Step], joined: dict[Spot, list[Spot]]) -> list[list[Spot]]:
    """The rows in the order with the fewest crossings that was found: each row by the middle of what it is joined to below, then above, and so on."""

    def share(spot: Spot) -> float:
        return order[spot] / len(table[spot.row])

    table = [list(row) for row in table]
    order = {spot: at for row in table for at, spot in enumerate(row)}
    best = (crossings(order, steps), table)
    for sweep in range(SWEEPS):
        below = sweep % 2 == 0
        for at in range(len(table)) if below else reversed(range(len(table))):
            beside = {spot: [other for other in joined[spot] if (other.row < at) == below] for spot in table[at]}
            middle = {spot: mean(map(share, others or [spot])) for spot, others in beside.items()}
            table[at] = sorted(table[at], key=middle.__getitem__)
            order.update((spot, place) for place, spot in enumerate(table[at]))
        best = min(best, (crossings(order, steps), [list(row) for row in table]), key=lambda found: found[0])
    return best[1]


def middle_of(spot: Spot, joined: dict[Spot, list[Spot]], places: Places) -> float:
    """The middle of what a spot is joined to; where a line only passes it weighs more, so that it runs straight."""
    pulls = [(8 if not (spot.name or other.name) else 1, places[other]) for other in joined[spot]]
    return sum(weight * place for weight, place in pulls) / sum(weight for weight, _ in pulls)


def placed(table: list[list[Spot]], joined: dict[Spot, list[Spot]]) -> Places:
    """A place for each spot, from 0 on, in the middle of what it is joined to as far as its row allows."""
    places = {spot: float(at) for row in table for at, spot in enumerate(row)}
    for _ in range(SWEEPS):
        for row in table:
            places.update(spread(row, {spot: middle_of(spot, joined, places) for spot in row}))
    left = min(place - width(spot) / 2 for spot, place in places.items())
    return {spot: place - left for spot, place in places.items()}


def arrange(drawn: list[Line], rows: dict[str, int]) -> Places:
    """A place for each spot."""
    spots = [Spot(row, name) for name, row in rows.items()] + [spot for line in drawn for spot in line[1:-1]]
    steps = [step for line in drawn for step in zip(line, line[1:])]
    joined = joined_by(spots, steps)
    table = [[spot for spot in spots if spot.row == row] for row in range(1 + max(rows.values()))]
    return placed(ordered(table, steps, joined), joined)
