"""A docket by itself: copies, states, and what it does not do."""
import copy
import pickle
import unittest
import weakref

import docket
from common import NOTHING, PROBLEM, ROOT, SCHEDULE, TREE, schedule
from docket import Docket, Draft, Forced, Held, Passed, Problem, Refused, Schedule, Tree, UnitsTaken

COPIES = {"copy": Docket.copy, "copy.copy": copy.copy, "copy.deepcopy": copy.deepcopy}

STATES = ROOT / "tests" / "states"

#: The kept state of the present layout; every other one is no docket.
PRESENT = "layout-2.state"


def opened(state: bytes) -> Docket:
    """A docket whose state is the bytes of a kept one, as far as there are so many, and zeros after them."""
    desk = Docket()
    numbers, rows = bytes(desk._numbers), bytes(desk._rows)
    whole = state.ljust(len(numbers) + len(rows), b"\0")
    desk._numbers = type(desk._numbers).from_buffer_copy(whole)
    desk._rows = type(desk._rows).from_buffer_copy(whole, len(numbers))
    return desk


class Dockets(unittest.TestCase):
    def test_copies_go_their_own_way(self) -> None:
        for name, made in COPIES.items():
            with self.subTest(name):
                desk = Docket()
                desk.lodge(PROBLEM)
                dear, cost = schedule(80, 30, 9)
                desk.lodge(dear)
                other = made(desk)
                self.assertEqual((other.report(), other.outputs()), (desk.report(), [60, 80, 0, 30]))
                self.assertEqual(other.lodge(SCHEDULE).verdict, Held(Schedule(1980)))
                self.assertEqual((desk.report().cost, desk.outputs()), (cost, [60, 80, 0, 30]))
                self.assertEqual(desk.lodge(TREE).verdict, Held(Tree(1980, 1, 2)))
                self.assertEqual((other.report().cost, other.report().bound), (1980, None))
                self.assertEqual(other.outputs(), [60, 80, 0, 20])

    def test_a_copy_outlives_what_it_copies(self) -> None:
        desk = Docket()
        desk.lodge(PROBLEM)
        other = desk.copy()
        gone = weakref.ref(desk)
        del desk
        self.assertIsNone(gone())
        self.assertEqual(other.lodge(SCHEDULE).verdict, Held(Schedule(1980)))

    def test_a_copy_within_a_list(self) -> None:
        desk = Docket()
        first, second = copy.deepcopy([desk, desk])
        self.assertIs(first, second)
        self.assertIsNot(first, desk)

    def test_a_docket_that_holds_nothing(self) -> None:
        desk = Docket()
        self.assertEqual((desk.outputs(), desk.report().text), ([], NOTHING))
        self.assertEqual(desk.lodge(SCHEDULE).verdict, Refused(42, 0, 0, 0))
        self.assertEqual(desk.lodge(PROBLEM).verdict, Held(Problem()))
        self.assertEqual((desk.outputs(), desk.report().text), ([], NOTHING))

    def test_outputs_are_the_held_ones(self) -> None:
        desk = Docket()
        desk.lodge(PROBLEM)
        desk.lodge(SCHEDULE)
        outputs = desk.outputs()
        outputs[0] = 5
        dear, _ = schedule(80, 30, 9)
        self.assertIsInstance(desk.lodge(dear).verdict, Passed)
        self.assertEqual(desk.outputs(), [60, 80, 0, 20])

    def test_the_short_words(self) -> None:
        desk = Docket()
        self.assertEqual(repr(desk), "<Docket cost=none costwriter=none bound=none boundwriter=none gap=none>")
        for text in (PROBLEM, SCHEDULE, TREE):
            desk.lodge(text)
        self.assertEqual(repr(desk), "<Docket cost=1980 costwriter=7 bound=1980 boundwriter=3 gap=0>")

    def test_no_docket_is_pickled(self) -> None:
        for protocol in range(pickle.HIGHEST_PROTOCOL + 1):
            with self.assertRaises(TypeError) as caught:
                pickle.dumps(Docket(), protocol)
            words = "a Docket cannot be pickled: keep the texts that were lodged in it, they decide everything"
            self.assertEqual(str(caught.exception), words)

    def test_a_state_that_is_no_docket(self) -> None:
        desk = Docket()
        desk.lodge(PROBLEM)
        desk._numbers[0] += 1
        taken = [lambda fixed=fixed: desk.units_taken(1, fixed=fixed) for fixed in (bytes(4), b"", bytes([9]))]
        runs = [lambda fixed=fixed: desk.cheapest_runs([1, 2], [0], fixed) for fixed in (bytes(4), b"", bytes([9]))]
        forced = [lambda fixed=fixed: desk.forced_statuses([1, 2], [0], fixed) for fixed in (bytes(4), b"", bytes([9]))]
        other = (desk.report, desk.outputs, lambda: desk.lodge(SCHEDULE), desk.copy().report)
        for call in (*other, *taken, *runs, *forced):
            with self.assertRaises(RuntimeError) as caught:
                call()
            self.assertEqual(str(caught.exception), "this is no docket: its state was changed from outside")
        desk._numbers[0] -= 1
        self.assertEqual(desk.lodge(SCHEDULE).verdict, Held(Schedule(1980)))

    def test_kept_states(self) -> None:
        kept = {path.name: path.read_bytes() for path in STATES.glob("*.state")}
        desk = opened(kept.pop(PRESENT))
        self.assertEqual(repr(desk), "<Docket cost=1980 costwriter=7 bound=1980 boundwriter=3 gap=0>")
        self.assertEqual(desk.outputs(), [60, 80, 0, 20])
        self.assertEqual(desk.units_taken(2, fixed=bytes(4)), UnitsTaken(False, 2))
        self.assertEqual(desk.cheapest_runs([10, 14], [0, 0], bytes(4)), Draft(1880, ((20, 80), (0, 0)), (40, 20)))
        forced = desk.forced_statuses([10, 14], [0, 0], bytes(4))
        self.assertEqual(forced.units, ((Forced(5, -120),) * 2, (Forced(0, 140), Forced(0, 100))))
        self.assertEqual(desk.lodge(SCHEDULE).verdict, Passed(Schedule(1980)))
        self.assertIn("layout-1.state", kept)
        for name, state in kept.items():
            with self.subTest(name):
                desk = opened(state)
                asked = (lambda: desk.lodge(SCHEDULE), lambda: desk.units_taken(2, fixed=bytes(4)))
                leaves = (desk.cheapest_runs, desk.forced_statuses)
                priced = (lambda ask=ask: ask([1, 2], [0, 0], bytes(4)) for ask in leaves)
                for call in (desk.report, desk.outputs, *asked, *priced):
                    with self.assertRaisesRegex(RuntimeError, "this is no docket"):
                        call()

    def test_the_number_of_the_rules(self) -> None:
        self.assertIsInstance(docket.rules(), int)
        self.assertEqual(docket.rules(), 4)
