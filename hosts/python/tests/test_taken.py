"""How many units `short` takes: values worked out by hand, questions that do not fit, and what may be asked with."""
import array
import ctypes
import inspect
import os
import random
import time
import unittest
from collections.abc import Sequence

from common import PROBLEM, SCHEDULE, TREE
from docket import Docket, Fixed, UnitsTaken

FREE, OFF, ON = Fixed.FREE, Fixed.OFF, Fixed.ON

NO_PROBLEM = "the docket knows no problem yet: units_taken asks about the problem that was lodged"
UNFIT = (
    "units_taken is asked what does not fit the problem of T periods and I units: the period is 1 to T, most is None "
    "or 0 to I - 1, and fixed has I * T bytes, each 0, 1 or 2"
)

#: Whole numbers that are no period and no upper count of the example's problem, some equal to one in their last bits.
POWERS = [2**power for power in (3, 8, 16, 32, 63, 64, 65, 20_000)]
FAR = [sign * (power + more) for sign in (1, -1) for power in POWERS for more in (-1, 0, 1, 2)]


def knowing(capacities: Sequence[int], needed: Sequence[int]) -> Docket:
    """A docket that knows a problem of units of these pU, that may be on or off at will, and what each period needs."""
    demand = ",".join(str(need - need // 3) for need in needed)
    spare = ",".join(str(need // 3) for need in needed)
    units = "".join(f"unit=0,0,0,1,{most},1,1,-1,1,1,0,0,0,0,0\n" for most in capacities)
    head = f"kind=problem\nperiods={len(needed)}\nunits={len(capacities)}\ndemand={demand}\nspare={spare}\n"
    desk = Docket()
    answer = desk.lodge(f"{head}{units}end=problem\n".encode("ascii"))
    if answer.line != "answer=held":
        raise ValueError(answer)
    return desk


def wanted(capacities: Sequence[int], need: int, most: int | None, statuses: Sequence[int]) -> UnitsTaken:
    """What `short` tells of one period: of the sums from the front, the first that is enough, or the last."""
    usable = [unit for unit, status in zip(capacities, statuses) if status != OFF]
    if most is not None:
        usable = sorted(usable, reverse=True)[:most]
    enough = [count for count in range(len(usable) + 1) if sum(usable[:count]) >= need]
    return UnitsTaken(not enough, enough[0] if enough else len(usable))


class Taken(unittest.TestCase):
    def says(self, sentence: str, desk: Docket, *arguments: object, fixed: object) -> None:
        """The question is a ValueError of this sentence."""
        with self.assertRaises(ValueError) as caught:
            desk.units_taken(*arguments, fixed=fixed)
        self.assertEqual(str(caught.exception), sentence)

    def test_the_examples(self) -> None:
        falling, rising = [80, 50, 30], [30, 50, 80]
        free = bytes(3)
        for capacities, need, most, fixed, short, units in (
            (falling, 120, None, free, False, 2),
            (falling, 120, 2, free, False, 2),
            (falling, 120, 1, free, True, 1),
            (falling, 120, None, bytes([OFF, FREE, FREE]), True, 2),
            (falling, 120, None, bytes([ON] * 3), False, 2),
            (falling, 120, 1, bytes([ON] * 3), True, 1),
            (rising, 100, None, free, False, 3),
            (rising, 100, 2, free, False, 2),
            (rising, 80, None, free, False, 2),
            (rising, 80, 2, free, False, 1),
            (rising, 0, None, free, False, 0),
            (rising, 0, 0, bytes([OFF] * 3), False, 0),
            (rising, 1, None, bytes([OFF] * 3), True, 0),
            (rising, 1, 0, free, True, 0),
        ):
            with self.subTest(capacities=capacities, need=need, most=most, fixed=fixed):
                taken = knowing(capacities, [need]).units_taken(1, most, fixed=fixed)
                self.assertEqual(taken, UnitsTaken(short, units))
                self.assertIs(type(taken.short), bool)
                self.assertIs(type(taken.units), int)

    def test_random_questions(self) -> None:
        seed = os.environ.get("SEED", str(time.time_ns()))
        chosen = random.Random(seed)
        shorts = []
        for _ in range(100):
            periods, count = chosen.choice([(48, 32), (1, 32), (48, 1), (5, 7), (2, 3)])
            capacities = [chosen.randint(1, 9) * 10 for _ in range(count)]
            needed = [chosen.randint(0, sum(capacities) // 10) * 10 + chosen.choice([0, 0, 1]) for _ in range(periods)]
            desk = knowing(capacities, needed)
            for _ in range(20):
                fixed = bytes(chosen.choices([FREE, OFF, ON], [6, chosen.randint(0, 6), 2], k=periods * count))
                period, most = chosen.randint(1, periods), chosen.choice([None, chosen.randrange(count)])
                taken = desk.units_taken(period, most, fixed=fixed)
                due = wanted(capacities, needed[period - 1], most, fixed[period - 1 :: periods])
                self.assertEqual(taken, due, f"seed {seed}")
                shorts.append(taken.short)
        self.assertGreater(min(sum(shorts), len(shorts) - sum(shorts)), 100, f"seed {seed}")

    def test_no_problem_comes_before_all_else(self) -> None:
        desk = Docket()
        for text in (b"", SCHEDULE, b"kind=problem\n"):
            desk.lodge(text)
            self.says(NO_PROBLEM, desk, 1, fixed=bytes(4))
            self.says(NO_PROBLEM, desk, 0, 99, fixed=b"odd")
            for number in FAR:
                self.says(NO_PROBLEM, desk, number, number, fixed=b"")
        desk.lodge(PROBLEM)
        self.assertEqual(desk.units_taken(1, fixed=bytes(4)), UnitsTaken(False, 1))

    def test_questions_that_do_not_fit(self) -> None:
        desk = Docket()
        desk.lodge(PROBLEM)
        for number in (0, 3, *FAR):
            self.says(UNFIT, desk, number, fixed=bytes(4))
        for number in (2, *FAR):
            self.says(UNFIT, desk, 1, number, fixed=bytes(4))
        self.says(UNFIT, desk, 1, -1, fixed=bytes(4))
        for length in (0, 1, 2, 3, 5, 8, 1_535, 1_536, 1_537, 1_540, 65_540, 5_000_000):
            for given in (bytes(length), bytearray(length), memoryview(bytes(length))):
                self.says(UNFIT, desk, 1, fixed=given)
        self.assertEqual(desk.units_taken(2, 1, fixed=bytes(4)), UnitsTaken(True, 1))

    def test_every_byte_in_every_place(self) -> None:
        desk = Docket()
        desk.lodge(PROBLEM)
        # units of pU 80 and 50, which need 110 in period 2: without either of them they do not reach it
        for at in range(4):
            for byte in range(256):
                fixed = bytearray(4)
                fixed[at] = byte
                if byte > 2:
                    self.says(UNFIT, desk, 2, fixed=fixed)
                else:
                    short = byte == OFF and at % 2 == 1
                    self.assertEqual(desk.units_taken(2, fixed=fixed), UnitsTaken(short, 1 if short else 2))

    def test_the_largest_problem(self) -> None:
        desk = knowing([10_000] * 32, [320_000] * 48)
        for period in (1, 48):
            self.assertEqual(desk.units_taken(period, fixed=bytes(1_536)), UnitsTaken(False, 32))
            self.assertEqual(desk.units_taken(period, 31, fixed=bytes(1_536)), UnitsTaken(True, 31))
            last_off = bytes(1_535) + bytes([OFF])
            self.assertEqual(desk.units_taken(period, fixed=last_off).units, 31 if period == 48 else 32)
        self.says(UNFIT, desk, 1, 32, fixed=bytes(1_536))
        self.says(UNFIT, desk, 49, fixed=bytes(1_536))
        for given in (bytes(1_537), bytearray(1_537), bytearray(3_072)):
            self.says(UNFIT, desk, 1, fixed=given)

    def test_a_question_changes_nothing(self) -> None:
        desk = Docket()
        for text in (PROBLEM, SCHEDULE, TREE):
            desk.lodge(text)
            state = bytes(desk._numbers), bytes(desk._rows)
            fixed = bytearray([FREE, ON, OFF, FREE])
            self.assertEqual(desk.units_taken(1, fixed=fixed), UnitsTaken(False, 1))
            self.assertEqual(desk.copy().units_taken(1, 1, fixed=fixed), UnitsTaken(False, 1))
            self.says(UNFIT, desk, 3, fixed=fixed)
            self.assertEqual((bytes(desk._numbers), bytes(desk._rows)), state)
            self.assertEqual(fixed, bytes([0, 2, 1, 0]))
            fixed.append(0)

    def test_statuses_in_any_row_of_bytes(self) -> None:
        desk = Docket()
        desk.lodge(PROBLEM)
        row = bytes([FREE, FREE, FREE, OFF])
        given = [row, bytearray(row), memoryview(row), array.array("B", row), array.array("b", row)]
        given += [(ctypes.c_ubyte * 4)(*row), memoryview(bytes(reversed(row)))[::-1], memoryview(b"??" + row)[2:]]
        for fixed in given:
            self.assertEqual(desk.units_taken(2, fixed=fixed), UnitsTaken(True, 1))

    def test_wrong_types(self) -> None:
        desk = Docket()
        desk.lodge(PROBLEM)
        wrong = [
            (("1",), {"fixed": bytes(4)}, "units_taken takes a whole number for period, not str"),
            ((1.0,), {"fixed": bytes(4)}, "units_taken takes a whole number for period, not float"),
            ((None,), {"fixed": bytes(4)}, "units_taken takes a whole number for period, not NoneType"),
            ((1, "1"), {"fixed": bytes(4)}, "units_taken takes a whole number for most, not str"),
            ((1, 0.5), {"fixed": bytes(4)}, "units_taken takes a whole number for most, not float"),
            ((1, b""), {"fixed": bytes(4)}, "units_taken takes a whole number for most, not bytes"),
            ((1,), {"fixed": "\0\0\0\0"}, "units_taken takes bytes, not str"),
            ((1,), {"fixed": [0, 0, 0, 0]}, "units_taken takes bytes, not list"),
            ((1,), {"fixed": None}, "units_taken takes bytes, not NoneType"),
            ((1,), {"fixed": 4}, "units_taken takes bytes, not int"),
        ]
        shape = "a row of bytes, not a buffer of {} dimensions with items of {} bytes"
        for fixed, sizes in ((array.array("Q", [0] * 4), (1, 8)), (memoryview(bytes(4)).cast("B", (2, 2)), (2, 1))):
            wrong.append(((1,), {"fixed": fixed}, f"units_taken takes {shape.format(*sizes)}"))
        for known in (desk, Docket()):
            for arguments, named, sentence in wrong:
                with self.assertRaises(TypeError) as caught:
                    known.units_taken(*arguments, **named)
                self.assertEqual(str(caught.exception), sentence)
        for arguments in ((), (1,), (1, None), (1, None, bytes(4))):
            self.assertRaises(TypeError, desk.units_taken, *arguments)

    def test_whole_numbers_of_other_types(self) -> None:
        class Whole:
            def __index__(self) -> int:
                return 1

        desk = Docket()
        desk.lodge(PROBLEM)
        self.assertEqual(desk.units_taken(Whole(), Whole(), fixed=bytes(4)), UnitsTaken(False, 1))
        self.assertEqual(desk.units_taken(Fixed.ON, Fixed.OFF, fixed=bytes(4)), UnitsTaken(True, 1))

    def test_statuses_have_names(self) -> None:
        self.assertEqual(bytes(Fixed), bytes([0, 1, 2]))
        self.assertEqual([status.name for status in Fixed], ["FREE", "OFF", "ON"])

    def test_how_it_is_called(self) -> None:
        parameters = inspect.signature(Docket.units_taken).parameters
        self.assertEqual(list(parameters), ["self", "period", "most", "fixed"])
        self.assertIsNone(parameters["most"].default)
