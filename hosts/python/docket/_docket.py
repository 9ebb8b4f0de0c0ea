"""A docket that stays open."""
import ctypes
import threading
from collections.abc import Callable, Iterable, Sequence
from typing import Any, NoReturn, final

from ._lent import Bytes, lent
from ._library import LINE_BYTES, MOST_TEXT, OUTPUTS, REPORT_BYTES, TAKEN, VALUES, checked, library
from .answer import Answer, answer_of
from .forced import ForcedStatuses, forced_of
from .report import Report, report_of
from .runs import CheapestRuns, multipliers_of, runs_of
from .taken import UnitsTaken, most_of, period_of, taken_of

_NUMBERS = library.docket_numbers()
_ROWS = library.docket_rows()
_Numbers = ctypes.c_uint64 * _NUMBERS
_Rows = ctypes.c_uint16 * _ROWS
_Line = ctypes.c_char * LINE_BYTES
_Values = ctypes.c_uint64 * VALUES
_Report = ctypes.c_char * REPORT_BYTES
_Outputs = ctypes.c_uint16 * OUTPUTS
_Taken = ctypes.c_uint64 * TAKEN
_Value = ctypes.c_int64 * 1
_Multipliers = ctypes.Array[ctypes.c_uint64]


def _leaf_of(
    call: str, prices: Iterable[int], reserves: Iterable[int], fixed: Bytes
) -> tuple[_Multipliers, _Multipliers, bytes]:
    """A price leaf given to a call, as the library is lent it."""
    q, s = multipliers_of(call, "prices", prices), multipliers_of(call, "reserves", reserves)
    # a problem has as many statuses as outputs, and more do not fit, however many there are
    given = lent(call, fixed, OUTPUTS, is_text=False, called="fixed")[: OUTPUTS + 1]
    return (ctypes.c_uint64 * len(q))(*q), (ctypes.c_uint64 * len(s))(*s), given


@final
class Docket:
    """A docket that holds nothing yet. Texts are lodged in it one by one.

    Threads may share it: its calls wait for each other, and other threads run during a call. The words of the package
    say how much stack a thread needs.
    """

    __slots__ = ("_numbers", "_rows", "_lock", "__weakref__")

    def __init__(self) -> None:
        self._numbers = _Numbers()
        self._rows = _Rows()
        self._lock = threading.RLock()
        checked(library.docket_fresh(self._numbers, _NUMBERS, self._rows, _ROWS))

    def lodge(self, text: Bytes) -> Answer:
        """Lodges a text, any bytes, and returns the answer. Only an answer that is Held changes what the docket holds.

        The text is bytes or another buffer that is a row of bytes; for all else there is a TypeError. Bytes are lent to
        the library as they are, any other buffer is copied first.
        """
        given = lent("lodge", text, MOST_TEXT)
        line = _Line()
        values = _Values()
        with self._lock:
            length = library.docket_lodge(
                self._numbers, _NUMBERS, self._rows, _ROWS, given, len(given), line, LINE_BYTES, values, VALUES
            )
        return answer_of(values[:], line.raw[: checked(length)])

    def report(self) -> Report:
        """The report: what is held, cost and bound, who wrote them, and the gap."""
        buffer = _Report()
        with self._lock:
            length = library.docket_report(self._numbers, _NUMBERS, self._rows, _ROWS, buffer, REPORT_BYTES, 0)
        return report_of(buffer.raw[: checked(length)])

    def outputs(self) -> list[int]:
        """The outputs of the held schedule, that of unit u in period t, both counted from 0, at u * T + t, T being the
        periods of the problem, which its text says. Empty where no schedule is held."""
        outputs = _Outputs()
        with self._lock:
            count = library.docket_outputs(self._numbers, _NUMBERS, self._rows, _ROWS, outputs, OUTPUTS)
        return outputs[: checked(count)]

    def units_taken(self, period: int, most: int | None = None, *, fixed: Bytes) -> UnitsTaken:
        """Whether `short` holds in a period of the problem, counted from 1, and how many units it takes to find out.

        It takes the units that are not fixed off there by number, or, where `most` is an upper count, the largest pU
        first and no more units than the count, and ends as soon as what it took reaches D + R. So they are the fewest,
        in that order, that reach D + R; or, where all that it may take do not, all of these, and then `short` holds.

        `fixed` has a byte for each status, one of Fixed: that of unit u in period t, both counted from 0, at u * T + t,
        T being the periods of the problem; `bytes(I * T)` fixes nothing. It is lent as a text is.

        A ValueError says that the docket knows no problem, or that the question does not fit it: the period is not 1 to
        T, `most` is not below the number of units, there are not as many bytes as units times periods, or one is above
        2. For what is no whole number or no bytes there is a TypeError.
        """
        number, upper = period_of(period), most_of(most)
        # a problem has as many statuses as outputs
        given = lent("units_taken", fixed, OUTPUTS, is_text=False)
        taken = _Taken()
        with self._lock:
            answer = library.docket_units_taken(
                self._numbers, _NUMBERS, self._rows, _ROWS, number, upper, given, len(given), taken, TAKEN
            )
        return taken_of(checked(answer), taken[:])

    def cheapest_runs(self, prices: Iterable[int], reserves: Iterable[int], fixed: Bytes) -> CheapestRuns:
        """The runs behind the value of a price leaf, and how far they fall short of the demand: a Draft; or Stuck, with
        the lowest unit to which what is fixed leaves no run.

        The leaf has a price multiplier q and a reserve multiplier s for each of the problem's T periods, from 0 to
        1,000,000,000, and `fixed` has a byte for each status that the splits above it fix, one of Fixed: that of unit u
        in period t, both counted from 0, at u * T + t; `bytes(I * T)` fixes nothing. It is lent as a text is.

        A unit's run is T outputs, each 0 for off or from pL to pU, that keep the up and down times and agree with what
        is fixed. What it is worth is its cost less q * p + s * pU for each period on with output p. The cheapest run
        counts; of equal ones the one that is off where another is on, in the first period in which they differ in this,
        and then the one with the smallest outputs. The leaf's value is what these runs are worth and, over the periods,
        q * D + s * (D + R). They keep no ramps, and together they need not reach D or D + R.

        A ValueError says that the docket knows no problem, or that the question does not fit it: there are not T prices
        and T reserves, a multiplier is not 0 to 1,000,000,000, there are not as many bytes as units times periods, or
        one is above 2. For what is no whole number or no bytes there is a TypeError.
        """
        q, s, given = _leaf_of("cheapest_runs", prices, reserves, fixed)
        runs, shortfalls = (ctypes.c_uint64 * len(given))(), (ctypes.c_uint64 * len(q))()
        value = _Value()
        answer = self._leaf_asked(library.docket_cheapest_runs, q, s, given, runs, shortfalls, value)
        return runs_of(answer, value[0], runs[:], shortfalls[:])

    def forced_statuses(self, prices: Iterable[int], reserves: Iterable[int], fixed: Bytes) -> ForcedStatuses:
        """What each unit is worth at a price leaf with a status forced, for every period and either status.

        The leaf is `prices`, `reserves` and `fixed`, as `cheapest_runs` has them. A value is the least that a run of
        the unit is worth, of those that agree with what is fixed and have the forced status in the period. It is the
        unit's own: the leaf's part for D and R is not in it. The lesser of a period's two values, or the one
        that is not None, is what the unit's cheapest run is worth, and how far the other is above it is what it costs to
        force that status.

        A value is None where the unit is stuck: no such run is left, as where the period is fixed the other way, for
        forcing does not undo what is fixed. Of a unit to which what is fixed leaves no run at all every value is None;
        the other units' values are given.

        A ValueError says that the docket knows no problem, or that the question does not fit it: there are not T prices
        and T reserves, a multiplier is not 0 to 1,000,000,000, there are not as many bytes as units times periods, or
        one is above 2. For what is no whole number or no bytes there is a TypeError.
        """
        q, s, given = _leaf_of("forced_statuses", prices, reserves, fixed)
        entries = 2 * len(given)
        values, stuck = (ctypes.c_int64 * entries)(), (ctypes.c_uint8 * entries)()
        answer = self._leaf_asked(library.docket_forced_statuses, q, s, given, values, stuck)
        return forced_of(answer, values[:], stuck[:], len(q))

    def _leaf_asked(self, call: Callable[..., int], *slices: Sequence[int]) -> int:
        """What a call about a price leaf answers: the leaf's slices, and those that are lent to be written to."""
        with self._lock:
            parts = ((self._numbers, _NUMBERS), (self._rows, _ROWS), *((part, len(part)) for part in slices))
            return checked(call(*(value for part in parts for value in part)))

    def copy(self) -> "Docket":
        """A docket of its own that holds the same."""
        other = Docket()
        with self._lock:
            other._numbers = _Numbers.from_buffer_copy(self._numbers)
            other._rows = _Rows.from_buffer_copy(self._rows)
        return other

    __copy__ = copy

    def __deepcopy__(self, memo: dict[int, Any]) -> "Docket":
        return self.copy()

    def __reduce__(self) -> NoReturn:
        raise TypeError("a Docket cannot be pickled: keep the texts that were lodged in it, they decide everything")

    def __repr__(self) -> str:
        return f"<Docket {' '.join(self.report().text.splitlines()[1:-1])}>"
