"""Threads: many on one docket, many dockets at once, and signals."""
import threading
import unittest
from collections.abc import Callable

import docket
from common import PROBLEM, SCHEDULE, cut, inputs, run_python, schedule
from docket import Docket, Draft, Forced, Held, Schedule, Stuck, UnitsTaken

MANY = 8

SIGNALS = """
import signal, time
from common import PROBLEM, SCHEDULE
from docket import Docket

desk = Docket()
desk.lodge(PROBLEM)
told = []

def tell(number, frame):
    taken = desk.units_taken(2, fixed=bytes(4)).units
    value = desk.cheapest_runs([10, 14], [0, 0], bytes(4)).value
    on = desk.forced_statuses([10, 14], [0, 0], bytes(4)).units[1][1].on
    held = desk.lodge(SCHEDULE).line, desk.report().cost, desk.outputs(), desk.copy().outputs()
    told.append((*held, taken, value, on))

signal.signal(signal.SIGALRM, tell)
signal.setitimer(signal.ITIMER_REAL, 0.002, 0.002)
lines, end = set(), time.monotonic() + 0.5
while time.monotonic() < end:
    lines.add(desk.lodge(b"kind=schedule").line)
    desk.report()
    desk.units_taken(1, fixed=bytes(4))
    desk.cheapest_runs([10, 14], [0, 0], bytes(4))
    desk.forced_statuses([10, 14], [0, 0], bytes(4))
signal.setitimer(signal.ITIMER_REAL, 0)
print(len(told) > 10, lines, set(map(str, sorted(told)[1:])))
"""


def together(works: list[Callable[[], None]]) -> list[BaseException]:
    """Does all the works at once, each in a thread; returns what went wrong."""
    wrong: list[BaseException] = []
    gate = threading.Barrier(len(works))

    def work(given: Callable[[], None]) -> None:
        try:
            gate.wait()
            given()
        except BaseException as error:
            wrong.append(error)

    threads = [threading.Thread(target=work, args=(given,)) for given in works]
    for thread in threads:
        thread.start()
    for thread in threads:
        thread.join()
    return wrong


class Threads(unittest.TestCase):
    def test_eight_threads_on_one_docket(self) -> None:
        pairs = [(first, second) for first in range(70, 81) for second in range(30, 51)] + [(80, 20)]
        written = dict(enumerate((schedule(*pair, at + 1) for at, pair in enumerate(pairs)), start=1))
        held: list[int] = []
        desk = Docket()
        desk.lodge(PROBLEM)

        def lodge(mine: list[int]) -> None:
            for writer in mine:
                text, cost = written[writer]
                verdict = desk.lodge(text).verdict
                self.assertEqual(verdict.figures, Schedule(cost))
                if isinstance(verdict, Held):
                    held.append(cost)
                report = desk.copy().report()
                self.assertEqual(report.cost, written[report.cost_writer][1])
                self.assertLessEqual(report.cost, cost)
                _, first, _, second = desk.outputs()
                self.assertIn((first, second), pairs)
                self.assertEqual(desk.units_taken(2, writer % 2, fixed=bytes(4)), UnitsTaken(True, writer % 2))
                self.assertEqual(desk.units_taken(2, fixed=bytearray(4)), UnitsTaken(False, 2))
                runs = desk.cheapest_runs([10, 14], [0, 0], bytes(4))
                self.assertEqual(runs, Draft(1880, ((20, 80), (0, 0)), (40, 20)))
                self.assertEqual(desk.cheapest_runs([10, 14], [0, 0], bytearray([1, 2, 0, 0])), Stuck(1))
                forced = desk.forced_statuses([10, 14], [0, 0], bytearray([1, 2, 0, 0]))
                stuck = (Forced(None, None),) * 2
                self.assertEqual(forced.units, (stuck, (Forced(0, 140), Forced(0, 100))))

        for turn in range(5):
            order = sorted(written, key=lambda writer: writer * 7919 % 257, reverse=turn % 2 == 1)
            self.assertEqual(together([lambda mine=order[at::MANY]: lodge(mine) for at in range(MANY)]), [])
        self.assertEqual(len(held), len(set(held)), "no cost is held twice")
        self.assertEqual((min(held), desk.report().cost, desk.report().gap), (1980, 1980, None))
        self.assertEqual(desk.outputs(), [60, 80, 0, 20])

    def test_eight_dockets_in_eight_threads(self) -> None:
        given = [(cut(whole), listing) for _, whole, listing in inputs() if len(whole) <= docket.MOST_INPUT]

        def lodge(at: int) -> None:
            for texts, listing in given[at:] + given[:at]:
                desk = Docket()
                lines = "".join(f"{desk.lodge(text)}\n" for text in texts)
                self.assertEqual(lines + desk.report().text, listing.decode("ascii"))

        self.assertEqual(together([lambda at=at: lodge(at * len(given) // MANY) for at in range(MANY)]), [])

    def test_listings_in_eight_threads(self) -> None:
        given = [(whole, listing) for _, whole, listing in inputs()][::5]

        def listed(at: int) -> None:
            for whole, listing in given[at:] + given[:at]:
                self.assertEqual(docket.listing(whole), listing)

        self.assertEqual(together([lambda at=at: listed(at) for at in range(MANY)]), [])

    def test_each_call_waits_for_the_docket(self) -> None:
        desk = Docket()
        desk.lodge(PROBLEM)
        calls = (
            lambda: desk.lodge(SCHEDULE),
            desk.report,
            desk.outputs,
            desk.copy,
            lambda: desk.units_taken(1, fixed=bytes(4)),
            lambda: desk.cheapest_runs([10, 14], [0, 0], bytes(4)),
            lambda: desk.forced_statuses([10, 14], [0, 0], bytes(4)),
        )
        threads = [threading.Thread(target=call) for call in calls]
        with desk._lock:
            for thread in threads:
                thread.start()
            for thread in threads:
                thread.join(0.05)
            self.assertEqual([thread.is_alive() for thread in threads], [True] * len(calls))
        for thread in threads:
            thread.join()
        self.assertEqual(desk.report().cost, 1980)

    def test_a_signal_may_use_the_docket_that_it_interrupts(self) -> None:
        ran = run_python("-c", f"import sys; sys.path.append('hosts/python/tests')\n{SIGNALS}")
        told = "('answer=passed,1980', 1980, [60, 80, 0, 20], [60, 80, 0, 20], 2, 1880, 100)"
        self.assertEqual((ran.returncode, ran.stderr), (0, ""))
        self.assertEqual(ran.stdout, f"True {{'answer=refused,12,1,0,0'}} {{{told!r}}}\n")
