"""The programs of this folder, README's words on them, and Python without its assertions."""
import sys
import tempfile
import unittest
from pathlib import Path

from common import NOTHING, PROBLEM, PYTHON, ROOT, SCHEDULE, TREE, copy_package, run_python

LODGE_FILES = str(PYTHON / "lodge_files.py")


class LodgeFiles(unittest.TestCase):
    def setUp(self) -> None:
        temporary = tempfile.TemporaryDirectory()
        self.addCleanup(temporary.cleanup)
        self.folder = Path(temporary.name)

    def files(self, *texts: bytes) -> list[str]:
        """The names of files with these texts."""
        names = [str(self.folder / f"{at}.txt") for at in range(len(texts))]
        for name, text in zip(names, texts):
            Path(name).write_bytes(text)
        return names

    def test_the_example(self) -> None:
        ran = run_python(LODGE_FILES, *self.files(PROBLEM, SCHEDULE, TREE))
        self.assertEqual((ran.returncode, ran.stderr), (0, ""))
        self.assertEqual(ran.stdout, (ROOT / "examples" / "example.out").read_text())

    def test_long_texts(self) -> None:
        ran = run_python(LODGE_FILES, *self.files(bytes(1_048_576), bytes(1_048_577)), "/dev/zero")
        answers = "answer=refused,12,1,0,0\nanswer=refused,11,0,0,0\nanswer=refused,11,0,0,0\n"
        self.assertEqual((ran.returncode, ran.stderr, ran.stdout), (0, "", answers + NOTHING))

    def test_a_file_that_cannot_be_read(self) -> None:
        for name, why in (("/no/such/file", "No such file or directory"), (str(self.folder), "Is a directory")):
            ran = run_python(LODGE_FILES, *self.files(PROBLEM), name)
            self.assertEqual((ran.returncode, ran.stdout), (1, "answer=held\n"))
            self.assertEqual(ran.stderr, f"{LODGE_FILES}: cannot read {name}: {why}\n")

    def test_answers_that_cannot_be_written(self) -> None:
        with open("/dev/full", "wb") as full:
            ran = run_python(LODGE_FILES, *self.files(PROBLEM), stdout=full)
        self.assertEqual(ran.returncode, 1)
        self.assertEqual(ran.stderr, f"{LODGE_FILES}: cannot write the answers: No space left on device\n")

    def test_no_file(self) -> None:
        ran = run_python(LODGE_FILES)
        self.assertEqual((ran.returncode, ran.stdout, ran.stderr), (2, "", f"usage: {LODGE_FILES} FILE..\n"))

    def test_no_library(self) -> None:
        program = copy_package(self.folder) / "lodge_files.py"
        program.write_bytes(Path(LODGE_FILES).read_bytes())
        ran = run_python(str(program), *self.files(PROBLEM), folder=self.folder)
        self.assertEqual((ran.returncode, ran.stdout), (1, ""))
        self.assertRegex(ran.stderr, rf"\A{program}: docket finds no library: .*\n\Z")


class Example(unittest.TestCase):
    def test_they_stand_in_readme(self) -> None:
        readme = (ROOT / "README.md").read_text()
        for name in ("example.py", "units_taken.py", "cheapest_runs.py", "forced_statuses.py"):
            lines = (PYTHON / name).read_text().splitlines()
            shown = "".join(f"    {line}\n" if line else "\n" for line in lines)
            self.assertTrue(f"\n\n{shown}\n" in readme, f"README.md does not show {name} as it is")

    def test_the_units_taken(self) -> None:
        said = ["UnitsTaken(short=False, units=2)", "UnitsTaken(short=True, units=1)", "UnitsTaken(short=True, units=1)"]
        ran = run_python(str(PYTHON / "units_taken.py"))
        self.assertEqual((ran.returncode, ran.stdout.splitlines(), ran.stderr), (0, said, ""))

    def test_the_cheapest_runs(self) -> None:
        said = [
            "value 1880 runs (20, 80) (0, 0) short by 40 20",
            "value 1980 runs (20, 80) (0, 10) short by 40 10",
            "unit 1 has no run",
        ]
        ran = run_python(str(PYTHON / "cheapest_runs.py"))
        self.assertEqual((ran.returncode, ran.stdout.splitlines(), ran.stderr), (0, said, ""))

    def test_the_forced_statuses(self) -> None:
        first = ["unit 1 in period 1 off 5 on -120", "unit 1 in period 2 off 5 on -120"]
        free = ["unit 2 in period 1 off 0 on 140", "unit 2 in period 2 off 0 on 100"]
        fixed = ["unit 2 in period 1 off 100 on 180", "unit 2 in period 2 off stuck on 100"]
        ran = run_python(str(PYTHON / "forced_statuses.py"))
        self.assertEqual((ran.returncode, ran.stdout.splitlines(), ran.stderr), (0, first + free + first + fixed, ""))

    def test_what_it_prints(self) -> None:
        said = [
            "a schedule that costs 56393768749",
            "a schedule that costs 56421653384",
            "no schedule costs less than 55937766017",
            "gap: 456002732",
        ]
        ran = run_python(str(PYTHON / "example.py"))
        self.assertEqual((ran.returncode, ran.stdout.splitlines(), ran.stderr), (0, said, ""))


if sys.flags.optimize == 0:

    class WithoutAssertions(unittest.TestCase):
        def test_all_is_the_same(self) -> None:
            ran = run_python("-O", str(PYTHON / "test_docket.py"), seconds=900)
            self.assertEqual(ran.returncode, 0, ran.stdout + ran.stderr)
            self.assertRegex(ran.stdout, r"\n[1-9][0-9]* passed, 0 failed\n\Z")
