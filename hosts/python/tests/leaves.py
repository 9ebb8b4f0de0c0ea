"""What is asked about price leaves: small problems, units whose rows can all be tried, and numbers that do not fit."""
import itertools
import random
from collections.abc import Sequence

from docket import Docket, Fixed

FREE, OFF, ON = Fixed.FREE, Fixed.OFF, Fixed.ON

#: Whole numbers that are no multipliers, some equal to one in their last bits.
POWERS = [2**power for power in (30, 32, 33, 63, 64, 65, 128, 20_000)]
FAR = [1_000_000_001, -1, -1_000_000_000, *POWERS, *(power + 10 for power in POWERS), *(-power for power in POWERS)]


def knowing(units: Sequence[str], demand: Sequence[int], spare: Sequence[int]) -> Docket:
    """A docket that knows a problem of these units' numbers, demand and spare."""
    loads = "".join(f"{key}={','.join(map(str, row))}\n" for key, row in (("demand", demand), ("spare", spare)))
    lines = "".join(f"unit={unit}\n" for unit in units)
    desk = Docket()
    head = f"kind=problem\nperiods={len(demand)}\nunits={len(units)}\n"
    answer = desk.lodge(f"{head}{loads}{lines}end=problem\n".encode("ascii"))
    if answer.line != "answer=held":
        raise ValueError(answer)
    return desk


#: What a row is worth, and the row.
Run = tuple[int, tuple[int, ...]]


class Unit:
    """The numbers of a unit line, chosen so small that rows are often worth the same."""

    def __init__(self, chosen: random.Random) -> None:
        self.a, self.b, self.c = chosen.choice([0, 0, 1, 3]), chosen.randint(0, 5), chosen.choice([0, 0, 1])
        self.least = chosen.randint(1, 3)
        self.most = self.least + chosen.randint(0, 3)
        self.up, self.down, self.cold = chosen.randint(1, 3), chosen.randint(1, 3), chosen.randint(0, 2)
        self.before = chosen.choice([-4, -3, -2, -1, 1, 2, 3])
        self.hot_start = chosen.choice([0, 0, 1, 3])
        self.cold_start = self.hot_start + chosen.choice([0, 0, 2])
        self.stop = chosen.choice([0, 0, 1, 4])

    def __str__(self) -> str:
        head = (self.a, self.b, self.c, self.least, self.most, self.up, self.down, self.before, 1, 1)
        tail = (self.hot_start, self.cold_start, self.cold, self.stop, self.least if self.before > 0 else 0)
        return ",".join(map(str, head + tail))

    def worth(self, row: Sequence[int], prices: Sequence[int], reserves: Sequence[int]) -> int | None:
        """What a row is worth; None where it breaks the up and down times."""
        on, spent, worth = self.before > 0, abs(self.before), 0
        for output, price, reserve in zip(row, prices, reserves):
            if (output > 0) == on:
                spent += 1
            else:
                if spent < (self.up if on else self.down):
                    return None
                start = self.hot_start if spent <= self.down + self.cold else self.cold_start
                worth += self.stop if on else start
                on, spent = not on, 1
            if on:
                worth += self.a + self.b * output + self.c * output * output - price * output - reserve * self.most
        return worth

    def runs(self, prices: Sequence[int], reserves: Sequence[int], fixed: bytes) -> list[Run]:
        """Every row that keeps the up and down times and agrees with what is fixed, and what it is worth."""
        every = [0, *range(self.least, self.most + 1)]
        allowed = {FREE: every, OFF: every[:1], ON: every[1:]}
        rows = itertools.product(*(allowed[status] for status in fixed))
        return [(worth, row) for row in rows if (worth := self.worth(row, prices, reserves)) is not None]
