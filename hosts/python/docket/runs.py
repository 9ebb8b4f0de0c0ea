"""Questions about the runs behind the value of a price leaf."""
import itertools
import operator
from collections.abc import Iterable, Sequence
from dataclasses import dataclass
from typing import Final


@dataclass(frozen=True, slots=True)
class Draft:
    """The cheapest run of each unit at a price leaf, by itself: a draft of a schedule, in which demand, spare and ramps
    may be missed.

    `value` is the leaf's value; `runs` has for each unit its outputs, one for each period, 0 for off; `shortfalls` has
    for each period how far the outputs together fall short of the demand, 0 where they do not.
    """

    value: int
    runs: tuple[tuple[int, ...], ...]
    shortfalls: tuple[int, ...]


@dataclass(frozen=True, slots=True)
class Stuck:
    """What is fixed leaves a unit no run: the lowest such unit, counted from 1."""

    unit: int


#: What is told of a price leaf.
CheapestRuns = Draft | Stuck

NO_PROBLEM: Final = "the docket knows no problem yet: cheapest_runs asks about the problem that was lodged"
UNFIT: Final = (
    "cheapest_runs is asked what does not fit the problem of T periods and I units: prices and reserves have T numbers "
    "each, 0 to 1,000,000,000, and fixed has I * T bytes, each 0, 1 or 2"
)

_MOST_PERIODS = 48
_LARGEST = 2**64 - 1
_STUCK = range(101, 133)


def multipliers_of(call: str, name: str, given: Iterable[int]) -> list[int]:
    """The multipliers given to a call, as the library takes them: of more than a problem has periods, one more; for a
    number that the library cannot be given the largest, which is too large a multiplier."""
    try:
        row = iter(given)
    except TypeError:
        raise TypeError(f"{call} takes a row of whole numbers for {name}, not {type(given).__name__}") from None
    return [_whole(call, name, number) for number in itertools.islice(row, _MOST_PERIODS + 1)]


def _whole(call: str, name: str, given: int) -> int:
    """The whole number that is given, if the library can be given it."""
    try:
        number = operator.index(given)
    except TypeError:
        raise TypeError(f"{call} takes whole numbers for {name}, not {type(given).__name__}") from None
    return number if 0 <= number <= _LARGEST else _LARGEST


def runs_of(answer: int, value: int, runs: Sequence[int], shortfalls: Sequence[int]) -> CheapestRuns:
    """What the library answers, and tells in numbers: as many shortfalls as there are periods."""
    match answer:
        case 0:
            periods = len(shortfalls)
            rows = (tuple(runs[at : at + periods]) for at in range(0, len(runs), periods))
            return Draft(value, tuple(rows), tuple(shortfalls))
        case 1:
            raise ValueError(NO_PROBLEM)
        case 2:
            raise ValueError(UNFIT)
    if answer in _STUCK:
        return Stuck(answer - 100)
    raise RuntimeError(f"the library gives an answer that this module does not know: {answer}")
