"""The report of a docket."""
import re
from dataclasses import dataclass

from .answer import NEVER, Never


@dataclass(frozen=True, slots=True)
class Report:
    """What a docket holds: the least cost and the highest bound, each with its writer, and the gap between them.

    A figure that is missing is None. `text` is the report as the docket writes it, and so is `str(report)`.
    """

    cost: int | None
    cost_writer: int | None
    bound: int | Never | None
    bound_writer: int | None
    gap: int | None
    text: str

    def __str__(self) -> str:
        return self.text


_FORM = re.compile(
    "kind=report\ncost=(.*)\ncostwriter=(.*)\nbound=(.*)\nboundwriter=(.*)\ngap=(.*)\nend=report\n"
)


def _number(value: str) -> int | None:
    """The number of a report's line; None where it has none."""
    return None if value == "none" else int(value)


def report_of(written: bytes) -> Report:
    """The report that the library wrote."""
    text = written.decode("ascii")
    found = _FORM.fullmatch(text)
    if found is None:
        raise RuntimeError(f"the library writes a report that this module does not know: {text!r}")
    cost, cost_writer, bound, bound_writer, gap = found.groups()
    return Report(
        cost=_number(cost),
        cost_writer=_number(cost_writer),
        bound=NEVER if bound == NEVER.value else _number(bound),
        bound_writer=_number(bound_writer),
        gap=_number(gap),
        text=text,
    )
