#!/usr/bin/env python3
"""make.py: writes layout-N.state for each layout N, the state of a docket after the texts of examples/example.txt.

The problem and the outputs are read from examples/example.txt, the held figures and their writers from the report that
ends examples/example.out. No docket is asked.
"""
import struct
from pathlib import Path

HERE = Path(__file__).resolve().parent
EXAMPLE = HERE.parent.parent / "examples" / "example"

MOST_PERIODS, MOST_UNITS = 48, 32

#: How many numbers a unit has in each layout: the first has all but p0, the second all.
UNIT_NUMBERS = {1: 15, 2: 16}


def values(path: Path) -> list[tuple[str, str]]:
    """The keys and values of a file's lines."""
    return [(key, value) for key, _, value in (line.partition("=") for line in path.read_text().splitlines())]


def numbers_of(value: str) -> list[int]:
    """The numbers of a value."""
    return [int(number) for number in value.split(",")]


def padded(numbers: list[int], length: int) -> list[int]:
    """The numbers, and zeros after them up to a length."""
    return numbers + [0] * (length - len(numbers))


def unit_numbers(line: list[int], layout: int) -> list[int]:
    """A unit's numbers as a state has them: Tini is whether the unit is on, and for how many periods it was so."""
    *before, tini = line[:8]
    numbers = before + [int(tini > 0), abs(tini)] + line[8:]
    assert len(numbers) == 16, "a unit line has fifteen numbers"
    return numbers[: UNIT_NUMBERS[layout]]


def state(layout: int) -> bytes:
    """The numbers, 64 bits each, then the rows, 16 bits each, least byte first."""
    lines = values(EXAMPLE.with_suffix(".txt"))
    problem = dict(lines)
    report = {key: value for key, value in values(EXAMPLE.with_suffix(".out")) if key != "answer"}
    units = [unit_numbers(numbers_of(value), layout) for key, value in lines if key == "unit"]
    outputs = [output for key, value in lines if key == "run" for output in numbers_of(value)]
    bound = int(report["bound"])
    numbers = [int.from_bytes(b"DOCKET" + bytes([layout]), "big"), 1]
    numbers += [1, int(report["cost"]), int(report["costwriter"])]
    numbers += [1 if bound >= 0 else 2, abs(bound), int(report["boundwriter"])]
    numbers += [int(problem["periods"]), int(problem["units"])]
    numbers += padded(numbers_of(problem["demand"]), MOST_PERIODS) + padded(numbers_of(problem["spare"]), MOST_PERIODS)
    numbers += padded([number for unit in units for number in unit], MOST_UNITS * UNIT_NUMBERS[layout])
    rows = padded(outputs, MOST_UNITS * MOST_PERIODS)
    return struct.pack(f"<{len(numbers)}Q{len(rows)}H", *numbers, *rows)


if __name__ == "__main__":
    for layout in UNIT_NUMBERS:
        (HERE / f"layout-{layout}.state").write_bytes(state(layout))
