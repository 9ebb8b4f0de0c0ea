"""The cheapest runs at a price leaf: values worked out by hand, every row of small problems, questions that do not fit,
and what may be asked with."""
import array
import ctypes
import inspect
import itertools
import os
import random
import time
import unittest
from collections.abc import Iterator, Sequence

from common import PROBLEM, SCHEDULE, TREE
from docket import Docket, Draft, Stuck
from leaves import FAR, FREE, OFF, ON, Unit, knowing

NO_PROBLEM = "the docket knows no problem yet: cheapest_runs asks about the problem that was lodged"
UNFIT = (
    "cheapest_runs is asked what does not fit the problem of T periods and I units: prices and reserves have T numbers "
    "each, 0 to 1,000,000,000, and fixed has I * T bytes, each 0, 1 or 2"
)

#: The first question of document 01's problem: its prices, its reserves, its statuses, and its draft.
ASKED = ([10, 14], [0, 0], bytes(4))
FOUND = Draft(1880, ((20, 80), (0, 0)), (40, 20))


def wanted(
    units: Sequence[Unit],
    demand: Sequence[int],
    spare: Sequence[int],
    prices: Sequence[int],
    reserves: Sequence[int],
    fixed: bytes,
) -> Draft | Stuck:
    """What is told of a price leaf, found by trying every row of each unit."""
    periods = len(demand)
    runs = [unit.runs(prices, reserves, fixed[at * periods :][:periods]) for at, unit in enumerate(units)]
    # of equal ones the first by its outputs, period by period
    found = [min(rows, default=None) for rows in runs]
    if None in found:
        return Stuck(found.index(None) + 1)
    needed = sum(q * d + s * (d + r) for q, s, d, r in zip(prices, reserves, demand, spare))
    cheapest = tuple(row for _, row in found)
    shortfalls = tuple(max(0, d - sum(column)) for d, column in zip(demand, zip(*cheapest)))
    return Draft(needed + sum(worth for worth, _ in found), cheapest, shortfalls)


class Runs(unittest.TestCase):
    def says(self, sentence: str, desk: Docket, prices: object, reserves: object, fixed: object) -> None:
        """The question is a ValueError of this sentence."""
        with self.assertRaises(ValueError) as caught:
            desk.cheapest_runs(prices, reserves, fixed)
        self.assertEqual(str(caught.exception), sentence)

    def example(self) -> Docket:
        """A docket that knows document 01's problem."""
        desk = Docket()
        desk.lodge(PROBLEM)
        return desk

    def test_the_example(self) -> None:
        desk = self.example()
        for prices, reserves, fixed, draft in (
            # unit 1 loses 100 in period 1 at any output, and gains 220 in period 2; unit 2 gains in none
            ([10, 14], [0, 0], [FREE, FREE, FREE, FREE], Draft(1880, ((20, 80), (0, 0)), (40, 20))),
            # unit 2 goes on for 60, and loses 40 at any output
            ([10, 14], [0, 0], [FREE, FREE, FREE, ON], Draft(1980, ((20, 80), (0, 10)), (40, 10))),
            ([12, 18], [0, 0], [FREE, FREE, FREE, FREE], Draft(1820, ((80, 80), (0, 50)), (0, 0))),
            # in period 1: 300 - 200 - 240 for unit 1, and 60 + 180 - 100 - 150 for unit 2
            ([10, 14], [3, 0], [FREE, FREE, FREE, FREE], Draft(1840, ((20, 80), (10, 0)), (30, 20))),
            # unit 1 stops for 5
            ([10, 14], [0, 0], [OFF, OFF, OFF, OFF], Draft(2005, ((0, 0), (0, 0)), (60, 100))),
            # the TD of unit 1 is 2
            ([10, 14], [0, 0], [OFF, ON, FREE, FREE], Stuck(1)),
        ):
            with self.subTest(prices=prices, reserves=reserves, fixed=fixed):
                self.assertEqual(desk.cheapest_runs(prices, reserves, bytes(fixed)), draft)
        draft = desk.cheapest_runs([12, 18], [0, 0], bytes(4))
        self.assertEqual([type(number) for number in (draft.value, *draft.runs[0], *draft.shortfalls)], [int] * 5)

    def test_equal_runs(self) -> None:
        for unit, prices, fixed, value, run in (
            # off where on is worth as much, but not where a start for 3 or a stop for 1 is saved
            ("0,5,0,2,4,1,1,1,10,10,0,0,0,0,2", [5, 7, 5], bytes(3), -8, (0, 4, 0)),
            ("0,5,0,2,4,1,1,1,10,10,3,3,0,0,2", [5, 7, 5], bytes(3), -8, (2, 4, 0)),
            ("0,5,0,2,4,1,1,1,10,10,0,0,0,1,2", [5, 5, 5], bytes(3), 0, (2, 2, 2)),
            # 2 * 3 + 9 - 27 = 2 * 4 + 16 - 36
            ("0,2,1,2,6,1,1,-1,10,10,0,0,0,0,0", [9], bytes([ON]), -12, (3,)),
            # on in period 1 alone or in period 3 alone gains 5
            ("10,0,0,1,1,1,2,1,10,10,0,0,0,0,1", [15, 1, 15], bytes(3), -5, (0, 0, 1)),
        ):
            with self.subTest(unit=unit, prices=prices):
                none = [0] * len(prices)
                draft = knowing([unit], none, none).cheapest_runs(prices, none, fixed)
                self.assertEqual(draft, Draft(value, (run,), tuple(none)))
                demand = [3] * len(prices)
                draft = knowing([unit], demand, none).cheapest_runs(prices, none, fixed)
                short = tuple(max(0, 3 - output) for output in run)
                self.assertEqual(draft, Draft(value + 3 * sum(prices), (run,), short))

    def test_random_questions(self) -> None:
        seed = os.environ.get("SEED", str(time.time_ns()))
        chosen = random.Random(seed)
        answers = []
        for _ in range(250):
            periods, units = chosen.randint(1, 4), [Unit(chosen) for _ in range(chosen.randint(1, 3))]
            demand = [chosen.randint(0, 9) for _ in range(periods)]
            spare = [chosen.randint(0, 3) for _ in range(periods)]
            desk = knowing([str(unit) for unit in units], demand, spare)
            for _ in range(3):
                prices = [chosen.randint(0, 8) for _ in range(periods)]
                reserves = [chosen.choice([0, 0, 0, 1, 2]) for _ in range(periods)]
                fixed = bytes(chosen.choices([FREE, OFF, ON], [8, 1, 1], k=periods * len(units)))
                due = wanted(units, demand, spare, prices, reserves, fixed)
                self.assertEqual(desk.cheapest_runs(prices, reserves, fixed), due, f"seed {seed}")
                answers.append(type(due))
        self.assertGreater(min(answers.count(Stuck), answers.count(Draft)), 20, f"seed {seed}")

    def test_the_lowest_stuck_unit(self) -> None:
        # off in period 1 none of them can be on in period 2
        desk = knowing(["100,10,0,20,80,2,2,3,30,30,50,90,1,5,60"] * 32, [60, 100], [10, 10])
        for stuck in range(32):
            fixed = bytearray(64)
            for unit in range(stuck, 32, 5):
                fixed[2 * unit : 2 * unit + 2] = [OFF, ON]
            self.assertEqual(desk.cheapest_runs([10, 14], [0, 0], fixed), Stuck(stuck + 1))

    def test_no_problem_comes_before_all_else(self) -> None:
        desk = Docket()
        for text in (b"", SCHEDULE, b"kind=problem\n"):
            desk.lodge(text)
            self.says(NO_PROBLEM, desk, *ASKED)
            self.says(NO_PROBLEM, desk, [], [], b"")
            self.says(NO_PROBLEM, desk, [1] * 99, [1] * 99, bytes([9]) * 5_000)
            for number in FAR:
                self.says(NO_PROBLEM, desk, [number], [number], b"odd")
        desk.lodge(PROBLEM)
        self.assertEqual(desk.cheapest_runs(*ASKED), FOUND)

    def test_questions_that_do_not_fit(self) -> None:
        desk = self.example()
        prices, reserves, free = ASKED
        for number in FAR:
            for row in ([10, number], [number, 14], [number, number]):
                self.says(UNFIT, desk, row, reserves, free)
                self.says(UNFIT, desk, prices, row, free)
                # before a unit that is stuck
                self.says(UNFIT, desk, prices, row, bytes([OFF, ON, FREE, FREE]))
        for length in (0, 1, 3, 4, 47, 48, 49, 50, 1_536, 1_000_000):
            self.says(UNFIT, desk, [1] * length, reserves, free)
            self.says(UNFIT, desk, prices, [1] * length, free)
            self.says(UNFIT, desk, range(length), range(length), free)
            self.says(UNFIT, desk, range(length), range(length), bytes(2 * length))
        for length in (0, 1, 2, 3, 5, 6, 8, 1_535, 1_536, 1_537, 1_540, 65_540, 5_000_000):
            for given in (bytes(length), bytearray(length), memoryview(bytes(length))):
                self.says(UNFIT, desk, prices, reserves, given)
        self.says(UNFIT, desk, itertools.count(), itertools.count(), free)
        self.assertEqual(desk.cheapest_runs(*ASKED), FOUND)

    def test_every_byte_in_every_place(self) -> None:
        desk = self.example()
        for at in range(4):
            for byte in range(256):
                fixed = bytearray(4)
                fixed[at] = byte
                if byte > 2:
                    self.says(UNFIT, desk, [10, 14], [0, 0], fixed)
                    continue
                draft = desk.cheapest_runs([10, 14], [0, 0], fixed)
                unit, period = divmod(at, 2)
                if byte != FREE:
                    self.assertEqual(draft.runs[unit][period] > 0, byte == ON)
                # only where unit 1 is off, or unit 2 is on, another run is the cheapest
                self.assertEqual(draft == FOUND, byte == FREE or (byte == ON) == (unit == 0))

    def test_the_largest_problem(self) -> None:
        desk = knowing(["0,0,0,1,10000,1,1,-1,1,1,0,0,0,0,0"] * 32, [320_000] * 48, [320_000] * 48)
        most = [10**9] * 48
        value = 48 * (10**9 * (320_000 + 640_000) - 32 * 2 * 10**9 * 10_000)
        full = (10_000,) * 48
        self.assertEqual(desk.cheapest_runs(most, most, bytes(1_536)), Draft(value, (full,) * 32, (0,) * 48))
        last_off = bytes(1_535) + bytes([OFF])
        draft = desk.cheapest_runs(most, most, last_off)
        runs, short = (full,) * 31 + (full[1:] + (0,),), (0,) * 47 + (10_000,)
        self.assertEqual(draft, Draft(value + 2 * 10**9 * 10_000, runs, short))
        for given in (bytes(1_535), bytes(1_537), bytearray(1_537), bytearray(3_072)):
            self.says(UNFIT, desk, most, most, given)
        self.says(UNFIT, desk, most + [0], most, bytes(1_536))
        self.says(UNFIT, desk, most, most[1:], bytes(1_536))

    def test_a_question_changes_nothing(self) -> None:
        desk = Docket()
        for text in (PROBLEM, SCHEDULE, TREE):
            desk.lodge(text)
            state = bytes(desk._numbers), bytes(desk._rows)
            prices, fixed = [10, 14], bytearray([FREE, FREE, FREE, ON])
            due = Draft(1980, ((20, 80), (0, 10)), (40, 10))
            self.assertEqual(desk.cheapest_runs(prices, [0, 0], fixed), due)
            self.assertEqual(desk.copy().cheapest_runs(prices, [0, 0], fixed), due)
            self.assertEqual(desk.cheapest_runs(prices, [0, 0], bytes([OFF, ON, FREE, FREE])), Stuck(1))
            self.says(UNFIT, desk, prices, [0], fixed)
            self.assertEqual((bytes(desk._numbers), bytes(desk._rows)), state)
            self.assertEqual((prices, fixed), ([10, 14], bytes([0, 0, 0, 2])))
            fixed.append(0)

    def test_the_value_is_that_of_a_tree(self) -> None:
        desk = self.example()
        draft = desk.cheapest_runs([10, 14], [0, 0], bytes([FREE, FREE, FREE, ON]))
        # the example's tree splits on unit 2 in period 2: off is short, and on has this leaf
        self.assertEqual(desk.lodge(TREE).verdict.figures.bound, draft.value)

    def test_rows_of_any_kind(self) -> None:
        desk = self.example()

        class Whole:
            def __init__(self, number: int) -> None:
                self.number = number

            def __index__(self) -> int:
                return self.number

        rows = [(10, 14), range(10, 15, 4), array.array("Q", [10, 14]), array.array("i", [10, 14]), bytes([10, 14])]
        rows += [(ctypes.c_uint64 * 2)(10, 14), memoryview(array.array("H", [10, 14])), [Whole(10), Whole(14)]]
        for row in rows:
            self.assertEqual(desk.cheapest_runs(row, [0, 0], bytes(4)), FOUND)
            # at its least output unit 1 costs 300 a period and is paid 800 and 1120, unit 2 180 and 500 and 700
            value = 2 * 300 - 800 - 1_120 + 60 + 2 * 180 - 500 - 700 + 10 * 70 + 14 * 110
            self.assertEqual(desk.cheapest_runs([0, 0], row, bytes(4)), Draft(value, ((20, 20), (10, 10)), (30, 70)))
        self.assertEqual(desk.cheapest_runs((price for price in (10, 14)), iter([0, 0]), bytes(4)), FOUND)
        self.assertEqual(desk.cheapest_runs(prices=[10, 14], reserves=[False, False], fixed=bytes(4)), FOUND)
        row = bytes([FREE, FREE, FREE, ON])
        given = [row, bytearray(row), memoryview(row), array.array("B", row), array.array("b", row)]
        given += [(ctypes.c_ubyte * 4)(*row), memoryview(bytes(reversed(row)))[::-1], memoryview(b"??" + row)[2:]]
        for fixed in given:
            self.assertEqual(desk.cheapest_runs([10, 14], [0, 0], fixed).value, 1980)

    def test_wrong_types(self) -> None:
        whole = "cheapest_runs takes whole numbers for {}, not {}"
        row = "cheapest_runs takes a row of whole numbers for {}, not {}"
        shape = "cheapest_runs takes a row of bytes, not a buffer of {} dimensions with items of {} bytes"
        wrong = [
            (10, [0, 0], bytes(4), row.format("prices", "int")),
            (None, [0, 0], bytes(4), row.format("prices", "NoneType")),
            ([10, 14], 0, bytes(4), row.format("reserves", "int")),
            ([10.0, 14], [0, 0], bytes(4), whole.format("prices", "float")),
            (["10", "14"], [0, 0], bytes(4), whole.format("prices", "str")),
            ("10,14", [0, 0], bytes(4), whole.format("prices", "str")),
            ([10, 14], [0, None], bytes(4), whole.format("reserves", "NoneType")),
            ([[10, 14]], [0, 0], bytes(4), whole.format("prices", "list")),
            ([10, 14], [0, 0], "\0\0\0\0", "cheapest_runs takes bytes for fixed, not str"),
            ([10, 14], [0, 0], [0, 0, 0, 0], "cheapest_runs takes bytes for fixed, not list"),
            ([10, 14], [0, 0], None, "cheapest_runs takes bytes for fixed, not NoneType"),
            ([10, 14], [0, 0], 4, "cheapest_runs takes bytes for fixed, not int"),
            ([10, 14], [0, 0], array.array("Q", [0] * 4), shape.format(1, 8)),
            ([10, 14], [0, 0], memoryview(bytes(4)).cast("B", (2, 2)), shape.format(2, 1)),
        ]
        for known in (self.example(), Docket()):
            for *arguments, sentence in wrong:
                with self.assertRaises(TypeError) as caught:
                    known.cheapest_runs(*arguments)
                self.assertEqual(str(caught.exception), sentence)
            for arguments in ((), ([10, 14],), ([10, 14], [0, 0])):
                self.assertRaises(TypeError, known.cheapest_runs, *arguments)

    def test_what_goes_wrong_in_a_row_is_told(self) -> None:
        def broken() -> Iterator[int]:
            yield 10
            raise KeyError("mine")

        self.assertRaises(KeyError, self.example().cheapest_runs, broken(), [0, 0], bytes(4))

    def test_nothing_lent_is_at_no_place(self) -> None:
        self.assertNotEqual(ctypes.addressof((ctypes.c_uint64 * 0)()), 0)

    def test_how_it_is_called(self) -> None:
        parameters = inspect.signature(Docket.cheapest_runs).parameters
        self.assertEqual(list(parameters), ["self", "prices", "reserves", "fixed"])
