#!/usr/bin/env python3
"""calls_inputs.py FOLDER: writes the texts on which calls are timed.

For each name two files: NAME.problem.txt, a problem, and NAME.text.txt, the text that is lodged after it.

    small          the schedule of examples/example.txt
    ten-by-24      the first schedule of examples/kazarlis-10.txt, 10 units and 24 periods
    32-by-48       a schedule of 32 units and 48 periods, the most there can be
    forty-leaves   the tree of examples/kazarlis-10.txt, 40 leaves
    megabyte-tree  price leaves on 32 units and 48 periods, as many as fit the longest text
    refused        the schedule of examples/example.txt with its first line damaged

Every text but the last is accepted. The files are the same in every run.
"""
import re
import sys
from collections.abc import Iterable, Iterator
from pathlib import Path

EXAMPLES = Path(__file__).resolve().parent.parent / "examples"
PERIODS = 48
UNITS = 32
MOST_TEXT = 1_048_576


def texts_of(name: str) -> list[bytes]:
    """The texts of an example."""
    return re.findall(rb"(?s)kind=.*?\nend=.*?\n", (EXAMPLES / name).read_bytes())


def random_numbers() -> Iterator[int]:
    """Numbers of 64 bits that look random and are the same in every run (xorshift)."""
    state = 88_172_645_463_325_252
    while True:
        state ^= state << 13 & 0xFFFF_FFFF_FFFF_FFFF
        state ^= state >> 7
        state ^= state << 17 & 0xFFFF_FFFF_FFFF_FFFF
        yield state


def line(key: str, values: Iterable[int]) -> str:
    """The line of a key and its values."""
    return f"{key}={','.join(map(str, values))}\n"


def problem(random: Iterator[int]) -> str:
    """A problem of 32 units and 48 periods; the units were on for 100 periods and more, gave 1,000 at last and reach 1,001."""
    text = line("demand", [20_000] * PERIODS) + line("spare", [2_000] * PERIODS)
    for _ in range(UNITS):
        low = 1 + next(random) % 1_000
        high = low + 1_000 + next(random) % 7_000
        fixed, by_output, by_square = (next(random) % most for most in (100_000_000, 3_000_000, 500))
        since = 100 + next(random) % 900
        hot, stop = (next(random) % 1_000_000 for _ in range(2))
        costs = [fixed, by_output, by_square]
        text += line("unit", [*costs, low, high, 5, 5, since, 10_000, 10_000, hot, 10 * hot, 4, stop, 1_000])
    return f"kind=problem\nperiods={PERIODS}\nunits={UNITS}\n{text}end=problem\n"


def schedule() -> str:
    """A schedule of that problem: each unit is off for 12 periods of 48."""
    runs = ([0 if (t // 12 + u) % 4 == 0 else 1_000 + u * t % 2 for t in range(PERIODS)] for u in range(UNITS))
    return "kind=schedule\nwriter=1\n" + "".join(line("run", run) for run in runs) + "end=schedule\n"


def nodes(random: Iterator[int], place: int, leaves: int) -> list[str]:
    """The nodes of a balanced tree of so many price leaves, with splits on the places from `place` on."""
    if leaves == 1:
        return [line(key, [next(random) % 5_000_000 for _ in range(PERIODS)]) for key in ("price", "reserve")]
    split = line("split", [place % UNITS + 1, place // UNITS + 1])
    halves = (leaves // 2, leaves - leaves // 2)
    return [split] + [node for half in halves for node in nodes(random, place + 1, half)]


def largest_tree(random: Iterator[int]) -> str:
    """A tree's text of at most MOST_TEXT bytes, and no more than a leaf below it or so."""
    text, leaves = "", MOST_TEXT // 700
    while not text or len(text) > MOST_TEXT:
        leaves -= 1 + max(0, len(text) - MOST_TEXT) // 800
        text = "kind=tree\nwriter=1\n" + "".join(nodes(random, 0, leaves)) + "end=tree\n"
    return text


def pairs() -> dict[str, tuple[bytes, bytes]]:
    """The problem and the text of each name."""
    small, ten = texts_of("example.txt"), texts_of("kazarlis-10.txt")
    random = random_numbers()
    large = problem(random).encode("ascii")
    return {
        "small": (small[0], small[1]),
        "ten-by-24": (ten[0], ten[1]),
        "32-by-48": (large, schedule().encode("ascii")),
        "forty-leaves": (ten[0], ten[3]),
        "megabyte-tree": (large, largest_tree(random).encode("ascii")),
        "refused": (small[0], small[1].replace(b"kind=schedule\n", b"kind=schedules\n")),
    }


def main() -> int:
    if len(sys.argv) != 2:
        print(f"usage: {sys.argv[0]} FOLDER", file=sys.stderr)
        return 2
    folder = Path(sys.argv[1])
    folder.mkdir(parents=True, exist_ok=True)
    for name, (problem_text, text) in pairs().items():
        (folder / f"{name}.problem.txt").write_bytes(problem_text)
        (folder / f"{name}.text.txt").write_bytes(text)
    return 0


if __name__ == "__main__":
    sys.exit(main())
