"""Questions about the units that `short` takes."""
import enum
import operator
from collections.abc import Sequence
from dataclasses import dataclass
from typing import Final


class Fixed(enum.IntEnum):
    """What a question fixes of a unit in a period: nothing, or that it is off or on. `bytes([Fixed.FREE, Fixed.OFF])`
    are two statuses."""

    FREE = 0
    OFF = 1
    ON = 2


@dataclass(frozen=True, slots=True)
class UnitsTaken:
    """Whether `short` holds in a period, and how many units it took to find out."""

    short: bool
    units: int


NO_PROBLEM: Final = "the docket knows no problem yet: units_taken asks about the problem that was lodged"
UNFIT: Final = (
    "units_taken is asked what does not fit the problem of T periods and I units: the period is 1 to T, most is None "
    "or 0 to I - 1, and fixed has I * T bytes, each 0, 1 or 2"
)

_LARGEST = 2**64 - 1


def period_of(period: int) -> int:
    """The period as the library takes it; 0, which is none, for a number that the library cannot be given."""
    number = _whole("period", period)
    return number if 0 <= number <= _LARGEST else 0


def most_of(most: int | None) -> int:
    """The upper count as the library takes it: one more than the count, 0 for none; the largest number, which is too
    large a count, for one that the library cannot be given."""
    if most is None:
        return 0
    count = _whole("most", most)
    return count + 1 if 0 <= count < _LARGEST else _LARGEST


def _whole(name: str, given: int) -> int:
    """The whole number that is given."""
    try:
        return operator.index(given)
    except TypeError:
        raise TypeError(f"units_taken takes a whole number for {name}, not {type(given).__name__}") from None


def taken_of(answer: int, values: Sequence[int]) -> UnitsTaken:
    """What the library answers, and tells in numbers."""
    match answer:
        case 0:
            short, units = values
            return UnitsTaken(short == 1, units)
        case 1:
            raise ValueError(NO_PROBLEM)
        case 2:
            raise ValueError(UNFIT)
    raise RuntimeError(f"the library gives an answer that this module does not know: {answer}")
