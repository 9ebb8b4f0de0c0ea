"""The longest texts, the deepest tree, and bytes that are no text."""
import unittest

import docket
from common import NOTHING, PROBLEM, SCHEDULE, large_problem, run_python
from docket import NEVER, Docket, Held, Passed, Refused, Schedule, Tree

DEEPEST = """
import threading
import docket
from common import large_problem

def lodge():
    desk = docket.Docket()
    desk.lodge(large_problem())
    splits = "".join(f"split={d % 32 + 1},{d // 32 + 1}\\nshort=1\\n" for d in range(64))
    prices = "price=" + ",".join(["1"] * 48) + "\\nreserve=" + ",".join(["1"] * 48) + "\\n"
    steps = "up=" + ",".join(["0"] * 47) + "\\ndown=" + ",".join(["0"] * 47) + "\\n"
    for leaf in (prices, "ramp" + prices + steps * 32):
        print(desk.lodge(f"kind=tree\\nwriter=1\\n{splits}{leaf}end=tree\\n".encode("ascii")).verdict)

threading.stack_size(2 * docket.STACK_BYTES)
thread = threading.Thread(target=lodge)
thread.start()
thread.join()
"""


def nodes(depth: int, leaves: int) -> list[str]:
    """The lines of a balanced tree of so many leaves."""
    if leaves == 1:
        return ["short=1"]
    split = f"split={depth % 32 + 1},{depth // 32 + 1}"
    return [split, *nodes(depth + 1, leaves // 2), *nodes(depth + 1, leaves - leaves // 2)]


def short_tree(leaves: int, length: int) -> bytes:
    """A tree's text of so many leaves and so many bytes; enough of its leaves are longer by a digit."""
    lines = ["kind=tree", "writer=1", *nodes(0, leaves), "end=tree"]
    missing = length - sum(len(line) + 1 for line in lines)
    places = [at for at, line in enumerate(lines) if line == "short=1"][:missing]
    for at in places:
        lines[at] = "short=10"
    return "".join(f"{line}\n" for line in lines).encode("ascii")


class Limits(unittest.TestCase):
    def test_a_tree_of_the_longest_text(self) -> None:
        leaves = 54_000
        longest, longer = (short_tree(leaves, docket.MOST_TEXT + more) for more in (0, 1))
        self.assertEqual((len(longest), len(longer)), (1_048_576, 1_048_577))
        desk = Docket()
        desk.lodge(large_problem())
        self.assertEqual(desk.lodge(longer).verdict, Refused(11, 0, 0, 0))
        self.assertEqual(desk.report().text, NOTHING)
        self.assertEqual(desk.lodge(longest).verdict, Held(Tree(NEVER, leaves - 1, leaves)))
        self.assertEqual(desk.lodge(bytearray(longest)).verdict, Passed(Tree(NEVER, leaves - 1, leaves)))
        self.assertEqual(desk.lodge(memoryview(longer)).verdict, Refused(11, 0, 0, 0))

    def test_the_length_alone_refuses_by_11(self) -> None:
        for number, length in ((12, 1_048_576), (11, 1_048_577), (11, 5_000_000)):
            for given in (bytes(length), bytearray(length), memoryview(bytes(length))):
                self.assertEqual(Docket().lodge(given).verdict, Refused(number, 1 if number == 12 else 0, 0, 0))

    def test_the_longest_input(self) -> None:
        for number, length in (("12,1,0,0", 65_536), ("11,0,0,0", 65_537), ("11,0,0,0", 5_000_000)):
            for given in (bytes(length), bytearray(length)):
                self.assertEqual(docket.listing(given), f"answer=refused,{number}\n{NOTHING}".encode("ascii"))

    def test_the_deepest_tree_on_the_least_stack(self) -> None:
        ran = run_python("-c", f"import sys; sys.path.append('hosts/python/tests')\n{DEEPEST}")
        self.assertEqual((ran.returncode, ran.stderr), (0, ""))
        # the ramp leaf, with no multiplier above 0 for a step, is the price leaf
        tree = r"(Tree\(bound=-?[0-9]+, splits=64, leaves=65\))"
        self.assertRegex(ran.stdout, rf"^Held\(figures={tree}\)\nPassed\(figures=\1\)\n$")

    def test_every_byte_alone_and_repeated(self) -> None:
        desk = Docket()
        for byte in range(256):
            for times in (1, 2, 15, 1_000, 70_000):
                self.assertEqual(desk.lodge(bytes([byte]) * times).verdict, Refused(12, 1, 0, 0))
            self.assertEqual(desk.lodge(bytes([byte]) * 1_048_577).verdict, Refused(11, 0, 0, 0))
        self.assertEqual(desk.report().text, NOTHING)

    def test_every_byte_in_every_place_of_a_schedule(self) -> None:
        desk = Docket()
        desk.lodge(PROBLEM)
        verdicts = set()
        for at in range(len(SCHEDULE)):
            for byte in range(256):
                text = SCHEDULE[:at] + bytes([byte]) + SCHEDULE[at + 1 :]
                verdict = desk.lodge(text).verdict
                verdicts.add(type(verdict))
                if verdict == Held(Schedule(1980)) or verdict == Passed(Schedule(1980)):
                    self.assertRegex(text, rb"\Akind=schedule\nwriter=[1-9]\nrun=60,80\nrun=0,20\nend=schedule\n\Z")
        self.assertEqual(verdicts, {Held, Passed, Refused})
        self.assertEqual(desk.report().cost, 1980)
