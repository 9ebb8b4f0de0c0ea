"""Questions about what the units are worth at a price leaf with a status forced."""
from collections.abc import Sequence
from dataclasses import dataclass
from typing import Final


@dataclass(frozen=True, slots=True)
class Forced:
    """What a unit is worth with its status in one period forced, off or on: the least of its runs that have this status
    there. None where the unit is stuck: what is fixed leaves it no such run."""

    off: int | None
    on: int | None


@dataclass(frozen=True, slots=True)
class ForcedStatuses:
    """What each unit is worth at a price leaf, by itself, with its status in a period forced.

    `units` has for each unit, for each period, the two values as Forced: those of unit u in period t, both counted from
    0, are `units[u][t]`.
    """

    units: tuple[tuple[Forced, ...], ...]


NO_PROBLEM: Final = "the docket knows no problem yet: forced_statuses asks about the problem that was lodged"
UNFIT: Final = (
    "forced_statuses is asked what does not fit the problem of T periods and I units: prices and reserves have T "
    "numbers each, 0 to 1,000,000,000, and fixed has I * T bytes, each 0, 1 or 2"
)


def forced_of(answer: int, values: Sequence[int], stuck: Sequence[int], periods: int) -> ForcedStatuses:
    """What the library answers, and tells in numbers: two of each for each unit and period."""
    match answer:
        case 0:
            entries = [None if mark else value for value, mark in zip(values, stuck)]
            all_forced = [Forced(off, on) for off, on in zip(entries[::2], entries[1::2])]
            rows = (tuple(all_forced[at : at + periods]) for at in range(0, len(all_forced), periods))
            return ForcedStatuses(tuple(rows))
        case 1:
            raise ValueError(NO_PROBLEM)
        case 2:
            raise ValueError(UNFIT)
    raise RuntimeError(f"the library gives an answer that this module does not know: {answer}")
