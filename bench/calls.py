#!/usr/bin/env python3
"""calls.py [RUNS]: times the calls of hosts/python on the texts of calls_inputs.py; prints the best of RUNS runs (100).

`call` is the library's call alone, through ctypes, its memory being there already; `lodge` and `report` are the
package's. Microseconds of processor time; a run is of one millisecond or one call.
"""
import ctypes
import sys
import time
import timeit
from collections.abc import Callable
from pathlib import Path

sys.path.insert(0, str(Path(__file__).resolve().parent.parent / "hosts" / "python"))

from calls_inputs import pairs
from docket import Docket
from docket._library import LINE_BYTES, REPORT_BYTES, VALUES, library


def best(call: Callable[[], object], runs: int) -> float:
    """The least time of a call, in microseconds."""
    timer = timeit.Timer(call, timer=time.process_time)
    many = max(1, int(0.001 / min(timer.repeat(10, 1))))
    return min(timer.repeat(runs, many)) / many * 1e6


def state(desk: Docket) -> tuple[object, int, object, int]:
    """The docket's state as a call takes it."""
    return desk._numbers, len(desk._numbers), desk._rows, len(desk._rows)


def lodge_call(desk: Docket, text: bytes) -> Callable[[], int]:
    """The library's call that lodges the text."""
    line, values = ctypes.create_string_buffer(LINE_BYTES), (ctypes.c_uint64 * VALUES)()
    lent = (*state(desk), text, len(text), line, LINE_BYTES, values, VALUES)
    return lambda: library.docket_lodge(*lent)


def report_call(desk: Docket) -> Callable[[], int]:
    """The library's call that writes the report."""
    lent = (*state(desk), ctypes.create_string_buffer(REPORT_BYTES), REPORT_BYTES, 0)
    return lambda: library.docket_report(*lent)


def row(name: str, length: int, call: Callable[[], int], lodge: Callable[[], object], runs: int) -> None:
    """Prints the row of a name."""
    print(f"| {name} | {length:,} | {best(call, runs):,.1f} | {best(lodge, runs):,.1f} |", flush=True)


def main() -> int:
    runs = int(sys.argv[1]) if len(sys.argv) > 1 else 100
    print("| text | bytes | call | lodge, report |\n|---|---|---|---|")
    for name, (problem, text) in pairs().items():
        desk = Docket()
        desk.lodge(problem)
        row(name, len(text), lodge_call(desk, text), lambda: desk.lodge(text), runs)
    desk = Docket()
    for text in pairs()["ten-by-24"]:
        desk.lodge(text)
    row("report", len(desk.report().text), report_call(desk), desk.report, runs)
    return 0


if __name__ == "__main__":
    sys.exit(main())
