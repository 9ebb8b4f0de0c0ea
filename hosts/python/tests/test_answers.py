"""Answers and reports as values."""
import copy
import dataclasses
import pickle
import unittest

import docket
from common import NOTHING, PROBLEM, SCHEDULE, TREE, large_problem, schedule
from docket import (
    NEVER,
    Answer,
    Docket,
    Draft,
    Forced,
    ForcedStatuses,
    Held,
    Never,
    Passed,
    Problem,
    Refused,
    Report,
    Schedule,
    Stuck,
    Tree,
    UnitsTaken,
)


def example() -> Docket:
    """A docket with the example's problem, schedule and tree."""
    desk = Docket()
    for text in (PROBLEM, SCHEDULE, TREE):
        desk.lodge(text)
    return desk


class Answers(unittest.TestCase):
    def test_the_example(self) -> None:
        desk = Docket()
        self.assertEqual(desk.lodge(PROBLEM), Answer(Held(Problem()), "answer=held"))
        self.assertEqual(desk.lodge(SCHEDULE), Answer(Held(Schedule(1980)), "answer=held,1980"))
        self.assertEqual(desk.lodge(TREE), Answer(Held(Tree(1980, 1, 2)), "answer=held,1980,1,2"))
        dearer, cost = schedule(80, 25, 9)
        self.assertEqual(desk.lodge(dearer), Answer(Passed(Schedule(cost)), f"answer=passed,{cost}"))
        self.assertEqual(desk.lodge(TREE), Answer(Passed(Tree(1980, 1, 2)), "answer=passed,1980,1,2"))
        self.assertEqual(desk.lodge(PROBLEM), Answer(Refused(41, 0, 0, 0), "answer=refused,41,0,0,0"))
        text, _ = schedule(80, 19, 9)
        self.assertEqual(desk.lodge(text), Answer(Refused(22, 0, 0, 2), "answer=refused,22,0,0,2"))

    def test_a_bound_below_zero(self) -> None:
        desk = Docket()
        desk.lodge(PROBLEM)
        # at price 100 and no reserve, each unit at its greatest output gains more than the demand is worth
        answer = desk.lodge(b"kind=tree\nwriter=3\nprice=100,100\nreserve=0,0\nend=tree\n")
        first = (100 + 10 * 80 - 100 * 80) * 2
        second = 60 + (40 + 14 * 50 - 100 * 50) * 2
        self.assertEqual(answer.verdict, Held(Tree(100 * (60 + 100) + first + second, 0, 1)))
        self.assertEqual(desk.report().bound, 100 * (60 + 100) + first + second)
        self.assertLess(desk.report().bound, 0)

    def test_a_ramp_leaf(self) -> None:
        desk = Docket()
        desk.lodge(PROBLEM)
        # unit 1 is off in period 1 and on in 2, with TD 2: refused at the last of two lines for each unit
        splits = b"split=1,1\nsplit=1,2\nshort=2\n"
        leaf = b"rampprice=10,14\nreserve=0,0\n" + b"up=0\ndown=0\n" * 2
        answer = desk.lodge(b"kind=tree\nwriter=5\n" + splits + leaf + b"end=tree\n")
        self.assertEqual(answer, Answer(Refused(35, 11, 0, 0), "answer=refused,35,11,0,0"))
        # unit 1 is best at 80 in both periods, and unit 2 off in both
        answer = desk.lodge(
            b"kind=tree\nwriter=5\nrampprice=10,14\nreserve=0,2\nup=3\ndown=0\nup=1\ndown=2\nend=tree\n"
        )
        first = (100 + 10 * 80 - 10 * 80) + (100 + 10 * 80 - 14 * 80 - 2 * 80) + 3 * (80 - (80 + 30))
        second = 1 * (0 - 50) + 2 * (0 - 50 - 0)
        required = 10 * 60 + 14 * 100 + 2 * (100 + 10)
        self.assertEqual(first + second + required, 1700)
        self.assertEqual(answer, Answer(Held(Tree(1700, 0, 1)), "answer=held,1700,0,1"))
        self.assertEqual((desk.report().bound, desk.report().bound_writer), (1700, 5))

    def test_never(self) -> None:
        desk = Docket()
        desk.lodge(large_problem())
        answer = desk.lodge(b"kind=tree\nwriter=3\nshort=1\nend=tree\n")
        self.assertEqual(answer, Answer(Held(Tree(NEVER, 0, 1)), "answer=held,never,0,1"))
        report = desk.report()
        self.assertEqual((report.cost, report.bound, report.bound_writer, report.gap), (None, NEVER, 3, None))
        self.assertEqual((str(NEVER), repr(NEVER)), ("never", "NEVER"))
        self.assertIs(pickle.loads(pickle.dumps(NEVER)), NEVER)
        self.assertIs(copy.deepcopy(NEVER), NEVER)
        self.assertEqual(list(Never), [NEVER])
        for wrong in (lambda: NEVER > 5, lambda: 5 > NEVER, lambda: 5 - NEVER, lambda: float(NEVER)):
            self.assertRaises(TypeError, wrong)

    def test_matching(self) -> None:
        desk = example()
        match desk.lodge(TREE), desk.lodge(b""):
            case Answer(Passed(Tree(int(bound), leaves=leaves)), line), Answer(Refused(12, at, _, _)):
                self.assertEqual((bound, leaves, line, at), (1980, 2, "answer=passed,1980,1,2", 1))
            case other:
                self.fail(f"no match: {other}")

    def test_a_report(self) -> None:
        text = "kind=report\ncost=1980\ncostwriter=7\nbound=1980\nboundwriter=3\ngap=0\nend=report\n"
        self.assertEqual(example().report(), Report(1980, 7, 1980, 3, 0, text))
        self.assertEqual(str(example().report()), text)
        self.assertEqual(Docket().report(), Report(None, None, None, None, None, NOTHING))

    def test_values_do_not_change(self) -> None:
        desk = example()
        answer = desk.lodge(TREE)
        refused, taken = desk.lodge(b"").verdict, desk.units_taken(1, fixed=bytes(4))
        self.assertEqual(taken, UnitsTaken(False, 1))
        draft = desk.cheapest_runs([12, 18], [0, 0], bytes(4))
        self.assertEqual(draft, Draft(1820, ((80, 80), (0, 50)), (0, 0)))
        forced = desk.forced_statuses([10, 14], [0, 0], bytes([2, 2, 1, 1]))
        first, second = (Forced(None, -120),) * 2, (Forced(0, None),) * 2
        self.assertEqual(forced, ForcedStatuses((first, second)))
        values = (answer, answer.verdict, answer.verdict.figures, refused, desk.report(), Schedule(1), taken)
        for value in (*values, draft, Stuck(1), forced, forced.units[0][0]):
            for field in dataclasses.fields(value):
                with self.assertRaises(dataclasses.FrozenInstanceError):
                    setattr(value, field.name, 1)
            self.assertEqual(pickle.loads(pickle.dumps(value)), value)
            self.assertEqual(hash(copy.copy(value)), hash(value))

    def test_everything_public_has_its_words(self) -> None:
        for name in docket.__all__:
            value = getattr(docket, name)
            self.assertTrue(value is NEVER or isinstance(value, int) or value.__doc__, name)
        for name, value in vars(Docket).items():
            self.assertTrue(name.startswith("_") or value.__doc__, name)
