"""Every committed input, text by text and as a whole, against its committed listing."""
import unittest

import docket
from common import FOLDERS, cut, inputs
from docket import NEVER, Answer, Figures, Held, Passed, Problem, Refused, Report, Schedule, Tree, Verdict


def figures(given: Figures) -> str:
    """What stands in a line for the figures of an accepted text."""
    match given:
        case Problem():
            return ""
        case Schedule(cost):
            return f",{cost}"
        case Tree(docket.NEVER, splits, leaves):
            return f",never,{splits},{leaves}"
        case Tree(int(bound), splits, leaves):
            return f",{bound},{splits},{leaves}"
    raise ValueError(given)


def line(verdict: Verdict) -> str:
    """The line of a verdict."""
    match verdict:
        case Held(given):
            return "answer=held" + figures(given)
        case Passed(given):
            return "answer=passed" + figures(given)
        case Refused(number, at, unit, period):
            return f"answer=refused,{number},{at},{unit},{period}"
    raise ValueError(verdict)


def lines(report: Report) -> str:
    """The report's text, of its figures."""
    keys = ("cost", "costwriter", "bound", "boundwriter", "gap")
    values = (report.cost, report.cost_writer, report.bound, report.bound_writer, report.gap)
    told = ["none" if value is None else "never" if value is NEVER else f"{value:d}" for value in values]
    return "kind=report\n" + "".join(f"{key}={value}\n" for key, value in zip(keys, told)) + "end=report\n"


def runs(text: bytes) -> list[int]:
    """The outputs that a schedule's text has."""
    rows = [row.removeprefix(b"run=") for row in text.split(b"\n") if row.startswith(b"run=")]
    return [int(output) for row in rows for output in row.split(b",")]


class Committed(unittest.TestCase):
    def lodged(self, texts: list[bytes]) -> tuple[list[Answer], Report]:
        """The answers to the texts, and the report; what is held is looked at after each."""
        desk = docket.Docket()
        answers, held = [], []
        for text in texts:
            answers.append(desk.lodge(text))
            if isinstance(answers[-1].verdict, Held) and isinstance(answers[-1].verdict.figures, Schedule):
                held = runs(text)
            self.assertEqual(desk.outputs(), held)
        return answers, desk.report()

    def test_text_by_text(self) -> None:
        for name, whole, listing in inputs():
            if len(whole) > docket.MOST_INPUT:
                continue
            with self.subTest(name):
                answers, report = self.lodged(cut(whole))
                wanted = listing.decode("ascii")
                self.assertEqual("".join(f"{answer}\n" for answer in answers) + str(report), wanted)
                self.assertEqual("".join(line(answer.verdict) + "\n" for answer in answers) + lines(report), wanted)

    def test_listing(self) -> None:
        for name, whole, listing in inputs():
            with self.subTest(name):
                self.assertEqual(docket.listing(whole), listing)

    def test_there_are_inputs(self) -> None:
        names = [name for name, _, _ in inputs()]
        for folder in FOLDERS:
            self.assertTrue(any(name.startswith(folder + "/") for name in names), folder)

    def test_every_kind_of_answer_was_there(self) -> None:
        kinds = set()
        for _, whole, _ in inputs():
            for answer in self.lodged(cut(whole))[0]:
                verdict = answer.verdict
                kinds.add(verdict.number if isinstance(verdict, Refused) else (type(verdict), type(verdict.figures)))
        accepted = {(Held, Problem), (Held, Schedule), (Held, Tree), (Passed, Schedule), (Passed, Tree)}
        refused = {12, 13, 14, 15, 21, 22, 23, 24, 25, 31, 32, 33, 34, 35, 36, 37, 41, 42}
        self.assertEqual(kinds, accepted | refused)
