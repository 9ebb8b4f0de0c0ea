"""What the units are worth at a price leaf with a status forced: values worked out by hand, every row of small
problems, questions that do not fit, and what may be asked with."""
import array
import ctypes
import inspect
import itertools
import os
import random
import time
import unittest
from collections.abc import Iterator, Sequence

from common import PROBLEM, SCHEDULE, TREE
from docket import Docket, Forced, ForcedStatuses
from leaves import FAR, FREE, OFF, ON, Unit, knowing

NO_PROBLEM = "the docket knows no problem yet: forced_statuses asks about the problem that was lodged"
UNFIT = (
    "forced_statuses is asked what does not fit the problem of T periods and I units: prices and reserves have T "
    "numbers each, 0 to 1,000,000,000, and fixed has I * T bytes, each 0, 1 or 2"
)

#: What a unit is worth in a period off and on.
Pair = tuple[int | None, int | None]

STUCK: Pair = (None, None)


def table(*units: Sequence[Pair]) -> ForcedStatuses:
    """The table of units with these pairs."""
    return ForcedStatuses(tuple(tuple(Forced(*pair) for pair in unit) for unit in units))


#: The first question of document 01's problem: its prices, its reserves, its statuses, and its table, by units. Unit 1
#: loses 100 in period 1, gains 220 in period 2, stops for 5, and off in period 1 is off in both; unit 2 starts for 60,
#: and loses 80 and 40.
ASKED = ([10, 14], [0, 0], bytes(4))
FIRST, SECOND = [(5, -120), (5, -120)], [(0, 140), (0, 100)]
FOUND = table(FIRST, SECOND)

#: The tables with one status of it fixed, by its place and whether it is on.
FIXED = {
    (0, OFF): table([(5, None), (5, None)], SECOND),
    (0, ON): table([(None, -120), (105, -120)], SECOND),
    (1, OFF): table([(5, 105), (5, None)], SECOND),
    (1, ON): table([(None, -120), (None, -120)], SECOND),
    (2, OFF): table(FIRST, [(0, None), (0, 100)]),
    (2, ON): table(FIRST, [(None, 140), (140, 180)]),
    (3, OFF): table(FIRST, [(0, 140), (0, None)]),
    (3, ON): table(FIRST, [(100, 180), (None, 100)]),
}


def wanted(units: Sequence[Unit], prices: Sequence[int], reserves: Sequence[int], fixed: bytes) -> ForcedStatuses:
    """What is told of a price leaf, found by trying every row of each unit."""
    periods = len(prices)
    rows = []
    for at, unit in enumerate(units):
        runs = unit.runs(prices, reserves, fixed[at * periods :][:periods])
        row = []
        for period in range(periods):
            worths = ([worth for worth, run in runs if (run[period] > 0) == on] for on in (False, True))
            row.append(tuple(min(worth, default=None) for worth in worths))
        rows.append(row)
    return table(*rows)


class ForcedTables(unittest.TestCase):
    def says(self, sentence: str, desk: Docket, prices: object, reserves: object, fixed: object) -> None:
        """The question is a ValueError of this sentence."""
        with self.assertRaises(ValueError) as caught:
            desk.forced_statuses(prices, reserves, fixed)
        self.assertEqual(str(caught.exception), sentence)

    def example(self) -> Docket:
        """A docket that knows document 01's problem."""
        desk = Docket()
        desk.lodge(PROBLEM)
        return desk

    def test_the_example(self) -> None:
        desk = self.example()
        for prices, reserves, fixed, due in (
            ([10, 14], [0, 0], [FREE, FREE, FREE, FREE], FOUND),
            ([10, 14], [0, 0], [FREE, FREE, FREE, ON], table(FIRST, [(100, 180), (None, 100)])),
            # at 12 and 18 unit 1 gains 60 and 540, and unit 2 loses 60 and gains 160
            ([12, 18], [0, 0], [FREE] * 4, table([(5, -600), (-55, -600)], [(-100, -40), (0, -100)])),
            # in period 1: 100 - 240 for unit 1, and 80 - 150 for unit 2
            ([10, 14], [3, 0], [FREE] * 4, table([(5, -360), (-135, -360)], [(0, -10), (-10, 30)])),
            ([10, 14], [0, 0], [OFF, OFF, OFF, OFF], table([(5, None)] * 2, [(0, None)] * 2)),
            # the TD of unit 1 is 2: it is stuck, and unit 2 is told
            ([10, 14], [0, 0], [OFF, ON, FREE, FREE], table([STUCK] * 2, SECOND)),
        ):
            with self.subTest(prices=prices, reserves=reserves, fixed=fixed):
                self.assertEqual(desk.forced_statuses(prices, reserves, bytes(fixed)), due)
        forced = desk.forced_statuses(*ASKED).units[0][0]
        self.assertEqual([type(value) for value in (forced.off, forced.on)], [int] * 2)

    def test_units_alone(self) -> None:
        late, tight = "0,5,0,2,4,1,1,1,10,10,1,10,0,0,2", "10,0,0,1,1,1,2,1,10,10,0,0,0,0,1"
        for unit, prices, fixed, row in (
            # 8 gained in period 2: starts and stops are free, or a start costs 3; or nothing gained, and 1 for a stop
            ("0,5,0,2,4,1,1,1,10,10,0,0,0,0,2", [5, 7, 5], bytes(3), [(-8, -8), (0, -8), (-8, -8)]),
            ("0,5,0,2,4,1,1,1,10,10,3,3,0,0,2", [5, 7, 5], bytes(3), [(-5, -8), (0, -8), (-8, -8)]),
            ("0,5,0,2,4,1,1,1,10,10,0,0,0,1,2", [5, 5, 5], bytes(3), [(1, 0)] * 3),
            # 8 gained in period 3; a hot start for 1 after one period off, a cold one for 10 after two
            (late, [5, 5, 7], bytes(3), [(-7, -8), (-7, -8), (0, -8)]),
            (late, [5, 5, 7], bytes([OFF, OFF, FREE]), [(0, None), (0, None), (0, 2)]),
            # 5 gained in period 1 or 3, 9 lost in period 2; one period off is too short a time
            (tight, [15, 1, 15], bytes(3), [(-5, -5), (-5, -1), (-5, -5)]),
            (tight, [15, 1, 15], bytes([ON, FREE, FREE]), [(None, -5), (-5, -1), (-5, -1)]),
            (tight, [15, 1, 15], bytes([ON, OFF, FREE]), [(None, -5), (-5, None), (-5, None)]),
            (tight, [15, 1, 15], bytes([ON, OFF, ON]), [STUCK] * 3),
            # 2 * 3 + 9 - 27
            ("0,2,1,2,6,1,1,-1,10,10,0,0,0,0,0", [9], bytes(1), [(0, -12)]),
        ):
            with self.subTest(unit=unit, prices=prices, fixed=fixed):
                none = [0] * len(prices)
                # demand and spare have no part in it
                for load in (none, [3] * len(prices)):
                    desk = knowing([unit], load, load)
                    self.assertEqual(desk.forced_statuses(prices, none, fixed), table(row))

    def test_random_questions(self) -> None:
        seed = os.environ.get("SEED", str(time.time_ns()))
        chosen = random.Random(seed)
        stuck = []
        for _ in range(250):
            periods, units = chosen.randint(1, 4), [Unit(chosen) for _ in range(chosen.randint(1, 3))]
            load = [chosen.randint(0, 9) for _ in range(periods)]
            desk = knowing([str(unit) for unit in units], load, load)
            for _ in range(3):
                prices = [chosen.randint(0, 8) for _ in range(periods)]
                reserves = [chosen.choice([0, 0, 0, 1, 2]) for _ in range(periods)]
                fixed = bytes(chosen.choices([FREE, OFF, ON], [8, 1, 1], k=periods * len(units)))
                due = wanted(units, prices, reserves, fixed)
                self.assertEqual(desk.forced_statuses(prices, reserves, fixed), due, f"seed {seed}")
                stuck.append(any(row[0] == Forced(*STUCK) for row in due.units))
        self.assertGreater(min(stuck.count(True), stuck.count(False)), 20, f"seed {seed}")

    def test_a_stuck_unit_among_others(self) -> None:
        # off in period 1 none of them can be on in period 2
        desk = knowing(["100,10,0,20,80,2,2,3,30,30,50,90,1,5,60"] * 32, [60, 100], [10, 10])
        for first in range(32):
            fixed = bytearray(64)
            stuck = range(first, 32, 5)
            for unit in stuck:
                fixed[2 * unit : 2 * unit + 2] = [OFF, ON]
            due = table(*([STUCK] * 2 if unit in stuck else FIRST for unit in range(32)))
            self.assertEqual(desk.forced_statuses([10, 14], [0, 0], fixed), due)

    def test_no_problem_comes_before_all_else(self) -> None:
        desk = Docket()
        for text in (b"", SCHEDULE, b"kind=problem\n"):
            desk.lodge(text)
            self.says(NO_PROBLEM, desk, *ASKED)
            self.says(NO_PROBLEM, desk, [], [], b"")
            self.says(NO_PROBLEM, desk, [1] * 99, [1] * 99, bytes([9]) * 5_000)
            for number in FAR:
                self.says(NO_PROBLEM, desk, [number], [number], b"odd")
        desk.lodge(PROBLEM)
        self.assertEqual(desk.forced_statuses(*ASKED), FOUND)

    def test_questions_that_do_not_fit(self) -> None:
        desk = self.example()
        prices, reserves, free = ASKED
        for number in FAR:
            for row in ([10, number], [number, 14], [number, number]):
                self.says(UNFIT, desk, row, reserves, free)
                self.says(UNFIT, desk, prices, row, free)
                self.says(UNFIT, desk, prices, row, bytes([OFF, ON, FREE, FREE]))
        for length in (0, 1, 3, 4, 47, 48, 49, 50, 1_536, 1_000_000):
            self.says(UNFIT, desk, [1] * length, reserves, free)
            self.says(UNFIT, desk, prices, [1] * length, free)
            self.says(UNFIT, desk, range(length), range(length), free)
            self.says(UNFIT, desk, range(length), range(length), bytes(2 * length))
        for length in (0, 1, 2, 3, 5, 6, 8, 1_535, 1_536, 1_537, 1_540, 65_540, 5_000_000):
            for given in (bytes(length), bytearray(length), memoryview(bytes(length))):
                self.says(UNFIT, desk, prices, reserves, given)
        self.says(UNFIT, desk, itertools.count(), itertools.count(), free)
        self.assertEqual(desk.forced_statuses(*ASKED), FOUND)

    def test_every_byte_in_every_place(self) -> None:
        desk = self.example()
        for at in range(4):
            for byte in range(256):
                fixed = bytearray(4)
                fixed[at] = byte
                if byte > 2:
                    self.says(UNFIT, desk, [10, 14], [0, 0], fixed)
                else:
                    self.assertEqual(desk.forced_statuses([10, 14], [0, 0], fixed), FIXED.get((at, byte), FOUND))

    def test_the_largest_problem(self) -> None:
        desk = knowing(["0,0,0,1,10000,1,1,-1,1,1,0,0,0,0,0"] * 32, [320_000] * 48, [320_000] * 48)
        most = [10**9] * 48
        each = -2 * 10**9 * 10_000
        full = [(47 * each, 48 * each)] * 48
        self.assertEqual(desk.forced_statuses(most, most, bytes(1_536)), table(*[full] * 32))
        last = [(46 * each, 47 * each)] * 47 + [(47 * each, None)]
        last_off = bytes(1_535) + bytes([OFF])
        self.assertEqual(desk.forced_statuses(most, most, last_off), table(*[full] * 31, last))
        for given in (bytes(1_535), bytes(1_537), bytearray(1_537), bytearray(3_072)):
            self.says(UNFIT, desk, most, most, given)
        self.says(UNFIT, desk, most + [0], most, bytes(1_536))
        self.says(UNFIT, desk, most, most[1:], bytes(1_536))

    def test_a_question_changes_nothing(self) -> None:
        desk = Docket()
        for text in (PROBLEM, SCHEDULE, TREE):
            desk.lodge(text)
            state = bytes(desk._numbers), bytes(desk._rows)
            prices, fixed = [10, 14], bytearray([FREE, FREE, FREE, ON])
            self.assertEqual(desk.forced_statuses(prices, [0, 0], fixed), FIXED[3, ON])
            self.assertEqual(desk.copy().forced_statuses(prices, [0, 0], fixed), FIXED[3, ON])
            stuck = desk.forced_statuses(prices, [0, 0], bytes([OFF, ON, FREE, FREE]))
            self.assertEqual(stuck, table([STUCK] * 2, SECOND))
            self.says(UNFIT, desk, prices, [0], fixed)
            self.assertEqual((bytes(desk._numbers), bytes(desk._rows)), state)
            self.assertEqual((prices, fixed), ([10, 14], bytes([0, 0, 0, 2])))
            fixed.append(0)

    def test_the_value_of_a_leaf_rises_by_what_a_status_costs(self) -> None:
        desk = self.example()
        off_on = desk.forced_statuses(*ASKED).units[1][1]
        self.assertEqual((off_on.off, off_on.on), (0, 100))
        # the leaf is worth 1880, and the example's tree splits on unit 2 in period 2: off is short, and on has the leaf
        self.assertEqual(desk.cheapest_runs(*ASKED).value, 1880)
        self.assertEqual(desk.lodge(TREE).verdict.figures.bound, 1980)

    def test_rows_of_any_kind(self) -> None:
        desk = self.example()

        class Whole:
            def __init__(self, number: int) -> None:
                self.number = number

            def __index__(self) -> int:
                return self.number

        rows = [(10, 14), range(10, 15, 4), array.array("Q", [10, 14]), array.array("i", [10, 14]), bytes([10, 14])]
        rows += [(ctypes.c_uint64 * 2)(10, 14), memoryview(array.array("H", [10, 14])), [Whole(10), Whole(14)]]
        # at its least output unit 1 costs 300 a period and is paid 800 and 1120, unit 2 180 and 500 and 700
        paid = table([(5, -1320), (-495, -1320)], [(-460, -780), (-260, -780)])
        for row in rows:
            self.assertEqual(desk.forced_statuses(row, [0, 0], bytes(4)), FOUND)
            self.assertEqual(desk.forced_statuses([0, 0], row, bytes(4)), paid)
        self.assertEqual(desk.forced_statuses((price for price in (10, 14)), iter([0, 0]), bytes(4)), FOUND)
        self.assertEqual(desk.forced_statuses(prices=[10, 14], reserves=[False, False], fixed=bytes(4)), FOUND)
        row = bytes([FREE, FREE, FREE, ON])
        given = [row, bytearray(row), memoryview(row), array.array("B", row), array.array("b", row)]
        given += [(ctypes.c_ubyte * 4)(*row), memoryview(bytes(reversed(row)))[::-1], memoryview(b"??" + row)[2:]]
        for fixed in given:
            self.assertEqual(desk.forced_statuses([10, 14], [0, 0], fixed), FIXED[3, ON])

    def test_wrong_types(self) -> None:
        whole = "forced_statuses takes whole numbers for {}, not {}"
        row = "forced_statuses takes a row of whole numbers for {}, not {}"
        shape = "forced_statuses takes a row of bytes, not a buffer of {} dimensions with items of {} bytes"
        wrong = [
            (10, [0, 0], bytes(4), row.format("prices", "int")),
            (None, [0, 0], bytes(4), row.format("prices", "NoneType")),
            ([10, 14], 0, bytes(4), row.format("reserves", "int")),
            ([10.0, 14], [0, 0], bytes(4), whole.format("prices", "float")),
            ("10,14", [0, 0], bytes(4), whole.format("prices", "str")),
            ([10, 14], [0, None], bytes(4), whole.format("reserves", "NoneType")),
            ([[10, 14]], [0, 0], bytes(4), whole.format("prices", "list")),
            ([10, 14], [0, 0], "\0\0\0\0", "forced_statuses takes bytes for fixed, not str"),
            ([10, 14], [0, 0], [0, 0, 0, 0], "forced_statuses takes bytes for fixed, not list"),
            ([10, 14], [0, 0], None, "forced_statuses takes bytes for fixed, not NoneType"),
            ([10, 14], [0, 0], array.array("Q", [0] * 4), shape.format(1, 8)),
            ([10, 14], [0, 0], memoryview(bytes(4)).cast("B", (2, 2)), shape.format(2, 1)),
        ]
        for known in (self.example(), Docket()):
            for *arguments, sentence in wrong:
                with self.assertRaises(TypeError) as caught:
                    known.forced_statuses(*arguments)
                self.assertEqual(str(caught.exception), sentence)
            for arguments in ((), ([10, 14],), ([10, 14], [0, 0])):
                self.assertRaises(TypeError, known.forced_statuses, *arguments)

    def test_what_goes_wrong_in_a_row_is_told(self) -> None:
        def broken() -> Iterator[int]:
            yield 10
            raise KeyError("mine")

        self.assertRaises(KeyError, self.example().forced_statuses, broken(), [0, 0], bytes(4))

    def test_nothing_lent_is_at_no_place(self) -> None:
        for kind in (ctypes.c_int64, ctypes.c_uint8):
            self.assertNotEqual(ctypes.addressof((kind * 0)()), 0)

    def test_how_it_is_called(self) -> None:
        parameters = inspect.signature(Docket.forced_statuses).parameters
        self.assertEqual(list(parameters), ["self", "prices", "reserves", "fixed"])
