"""The answer to a text, as a program can match on it."""
import enum
from collections.abc import Sequence
from dataclasses import dataclass
from typing import Final


class Never(enum.Enum):
    """The type of NEVER, its one value: the bound of a tree that shows that no schedule meets the rules. It is no
    number: it has no order and no sums."""

    NEVER = "never"

    def __str__(self) -> str:
        return self.value

    def __repr__(self) -> str:
        return self.name


#: The bound of a tree that shows that no schedule meets the rules. It is no number: it has no order and no sums.
NEVER: Final = Never.NEVER


@dataclass(frozen=True, slots=True)
class Problem:
    """The accepted text is a problem."""


@dataclass(frozen=True, slots=True)
class Schedule:
    """The accepted text is a schedule of this cost."""

    cost: int


@dataclass(frozen=True, slots=True)
class Tree:
    """The accepted text is a tree: no schedule that meets the rules costs less than its bound; where that is NEVER,
    none meets them."""

    bound: int | Never
    splits: int
    leaves: int


#: What an accepted text is, with its figures.
Figures = Problem | Schedule | Tree


@dataclass(frozen=True, slots=True)
class Held:
    """The text is accepted, and the docket holds it now."""

    figures: Figures


@dataclass(frozen=True, slots=True)
class Passed:
    """The text is accepted, but what the docket holds is as good or better, and stays."""

    figures: Figures


@dataclass(frozen=True, slots=True)
class Refused:
    """The text is refused, and the docket is as it was. Lines, units and periods are counted from 1; what does not
    apply is 0. The repository's README.md has the table of the numbers."""

    number: int
    line: int
    unit: int
    period: int


#: Whether a text was accepted, and with what.
Verdict = Held | Passed | Refused


@dataclass(frozen=True, slots=True)
class Answer:
    """The answer to a lodged text: a verdict for programs, and the same as a line, without the newline that ends it in
    a listing. `str(answer)` is the line."""

    verdict: Verdict
    line: str

    def __str__(self) -> str:
        return self.line


def _figures(kind: int, size: int, splits: int, leaves: int) -> Figures:
    """The figures that the library gives as numbers."""
    match kind:
        case 0:
            return Problem()
        case 1:
            return Schedule(size)
        case 2:
            return Tree(size, splits, leaves)
        case 3:
            return Tree(-size, splits, leaves)
        case 4:
            return Tree(NEVER, splits, leaves)
    raise RuntimeError(f"the library gives figures of a kind that this module does not know: {kind}")


def _verdict(answer: int, kind: int, *numbers: int) -> Verdict:
    """The verdict that the library gives as numbers."""
    match answer:
        case 0:
            return Refused(*numbers[:4])
        case 1:
            return Held(_figures(kind, *numbers[:3]))
        case 2:
            return Passed(_figures(kind, *numbers[:3]))
    raise RuntimeError(f"the library gives an answer that this module does not know: {answer}")


def answer_of(values: Sequence[int], line: bytes) -> Answer:
    """The answer that the library gives as numbers and as a line."""
    return Answer(_verdict(*values), line.decode("ascii").removesuffix("\n"))
