"""The shared object: what it exports, where it is looked for, and what is said of one that is missing or wrong."""
import ctypes
import os
import re
import shutil
import subprocess
import tempfile
import unittest
from pathlib import Path

from common import HEADER, LIBRARY, PYTHON, copy_package, run_python
from docket import _library

BUILD = "run 'tools/archive' and then 'hosts/python/build.sh' in the repository"
LODGE = "from docket import Docket; print(Docket().lodge(b''))"


def declared() -> dict[str, list[bool]]:
    """The calls of docket.h, each with what it takes: whether it is a pointer."""
    calls = re.findall(r"^size_t (\w+)\(([^)]*)\);", HEADER.read_text(), re.MULTILINE)
    return {name: ["*" in taken for taken in takes.split(",") if taken != "void"] for name, takes in calls}


def compiled(source: Path, file: Path, *options: str) -> str:
    """The name of the file, with the source compiled into a shared object."""
    subprocess.run(["cc", "-shared", "-fPIC", *options, "-o", str(file), str(source)], check=True)
    return str(file)


def shown(*command: str) -> list[str]:
    """The lines that the command prints of the library."""
    return subprocess.run([*command, str(LIBRARY)], check=True, capture_output=True, text=True).stdout.splitlines()


class Object(unittest.TestCase):
    def test_it_exports_the_calls_and_nothing_else(self) -> None:
        defined = sorted(row.split()[1:] for row in shown("nm", "-D", "--defined-only"))
        self.assertEqual(defined, [["T", name] for name in sorted(declared())])

    def test_it_needs_the_memory_functions_alone(self) -> None:
        rows = [row.split() for row in shown("nm", "-D", "-u")]
        needed = {name.split("@")[0] for kind, name in rows if kind == "U"}
        self.assertLessEqual(needed, {"memcpy", "memset"})

    def test_its_name(self) -> None:
        self.assertIn("soname: [libdocket.so]", "\n".join(shown("readelf", "-d")))

    def test_it_is_made_of_the_archive_that_is_there(self) -> None:
        with tempfile.TemporaryDirectory() as folder:
            made = Path(folder) / "made here.so"
            subprocess.run([str(PYTHON / "build.sh"), str(made)], check=True)
            self.assertEqual(made.read_bytes(), LIBRARY.read_bytes())
            self.assertEqual(os.listdir(folder), [made.name])

    def test_no_archive(self) -> None:
        with tempfile.TemporaryDirectory() as folder:
            script = Path(folder) / "hosts" / "python" / "build.sh"
            script.parent.mkdir(parents=True)
            shutil.copy(PYTHON / "build.sh", script)
            ran = subprocess.run([str(script)], capture_output=True, text=True)
        self.assertEqual((ran.returncode, ran.stdout), (1, ""))
        self.assertRegex(ran.stderr, r"\Ano .*/libdocket_host\.a: run 'tools/archive' in the repository\n\Z")

    def test_the_header_says_the_same(self) -> None:
        pointer = {True: ctypes.c_void_p, False: ctypes.c_size_t}
        self.assertEqual(_library.CALLS, {name: [pointer[it] for it in takes] for name, takes in declared().items()})
        constants = dict(re.findall(r"^#define DOCKET_(\w+) \(\(size_t\)(\d+)\)$", HEADER.read_text(), re.MULTILINE))
        self.assertEqual(len(constants), 9)
        for name, value in constants.items():
            self.assertEqual(getattr(_library, name), int(value), name)


class Search(unittest.TestCase):
    def setUp(self) -> None:
        temporary = tempfile.TemporaryDirectory()
        self.addCleanup(temporary.cleanup)
        self.folder = copy_package(Path(temporary.name))
        self.beside = self.folder / "docket" / "libdocket.so"

    def last_line(self, library: str | None, program: str = LODGE) -> str:
        """The last line that the program writes, with the copy of the package."""
        ran = run_python("-c", program, folder=self.folder, library=library)
        said = ran.stdout + ran.stderr
        self.assertEqual(ran.returncode, 1 if ran.stderr else 0, said)
        return said.splitlines()[-1]

    def other_file(self, content: bytes) -> str:
        """The name of a file beside the package, with this content."""
        file = self.folder / "other.so"
        file.write_bytes(content)
        return str(file)

    def test_none(self) -> None:
        words = f"docket finds no library: there is no {self.beside}, and the environment variable DOCKET_LIBRARY"
        for library in (None, ""):
            self.assertEqual(self.last_line(library), f"ImportError: {words} is not set; {BUILD}")
        for library in ("/no/such/file.so", str(self.folder), "libc.so.6"):
            self.assertEqual(self.last_line(library), f"ImportError: {words} names no file: {library}; {BUILD}")

    def test_one_that_is_named(self) -> None:
        answer = "answer=refused,12,1,0,0"
        self.assertEqual(self.last_line(str(LIBRARY)), answer)
        shutil.copy(LIBRARY, self.folder / "named.so")
        self.assertEqual(self.last_line("named.so", f"import os; os.chdir({str(self.folder)!r}); {LODGE}"), answer)

    def test_the_one_beside_comes_first(self) -> None:
        shutil.copy(LIBRARY, self.beside)
        for library in (None, "/no/such/file.so", self.other_file(b"odd")):
            self.assertEqual(self.last_line(library), "answer=refused,12,1,0,0")
        self.beside.write_bytes(b"no library")
        self.assertIn(f"docket cannot load its library {self.beside}: ", self.last_line(str(LIBRARY)))

    def test_no_library(self) -> None:
        for content in (b"", b"no library\n", bytes(10_000), b"\x7fELF", LIBRARY.read_bytes()[:40]):
            library = self.other_file(content)
            words = rf"ImportError: docket cannot load its library {library}: [a-zA-Z ]+; {BUILD}"
            self.assertRegex(self.last_line(library), rf"\A{words}\Z")

    def test_a_library_that_lacks_a_call(self) -> None:
        library = compiled(PYTHON / "tests" / "odd_library.c", self.folder / "other.so", "-DODD=0")
        words = f"ImportError: docket cannot use the library {library}: it has no call docket_outputs; {BUILD}"
        self.assertEqual(self.last_line(library), words)

    def test_a_library_that_answers_oddly(self) -> None:
        words = {
            1: f"the library wants more room than this module lends: it is of another version; {BUILD}",
            2: "this is no docket: its state was changed from outside",
            3: "the library gives an answer that this module does not know: 9",
            4: "the library gives figures of a kind that this module does not know: 9",
        }
        for odd, said in words.items():
            library = compiled(PYTHON / "tests" / "odd_library.c", self.folder / f"{odd}.so", f"-DODD={odd}")
            self.assertEqual(self.last_line(library), f"RuntimeError: {said}")
        library = compiled(PYTHON / "tests" / "odd_library.c", self.folder / "5.so", "-DODD=5")
        self.assertEqual(self.last_line(library), "answer=odd")
        line = self.last_line(library, "import docket; docket.Docket().report()")
        said = r"the library writes a report that this module does not know: 'kind=odd\n'"
        self.assertEqual(line, f"RuntimeError: {said}")
        line = self.last_line(library, "import docket; docket.listing(b'')")
        self.assertEqual(line, f"RuntimeError: {words[1]}")
        ask = "import docket; docket.Docket().units_taken(1, fixed=b'')"
        runs = "import docket; docket.Docket().cheapest_runs([], [], b'')"
        forced = "import docket; docket.Docket().forced_statuses([], [], b'')"
        for odd, said in {1: words[1], 2: words[2], 6: words[3]}.items():
            library = compiled(PYTHON / "tests" / "odd_library.c", self.folder / f"{odd}.so", f"-DODD={odd}")
            self.assertEqual(self.last_line(library, ask), f"RuntimeError: {said}")
            self.assertEqual(self.last_line(library, runs), f"RuntimeError: {said}")
            self.assertEqual(self.last_line(library, forced), f"RuntimeError: {said}")
        for odd, numbers in {7: {runs: 100, forced: 3}, 8: {runs: 133, forced: 101}}.items():
            library = compiled(PYTHON / "tests" / "odd_library.c", self.folder / f"{odd}.so", f"-DODD={odd}")
            for call, number in numbers.items():
                said = f"the library gives an answer that this module does not know: {number}"
                self.assertEqual(self.last_line(library, call), f"RuntimeError: {said}")

    def test_the_error_names_the_file(self) -> None:
        program = "try:\n import docket\nexcept ImportError as error:\n print(error.name, error.path)"
        library = self.other_file(b"odd")
        self.assertEqual(self.last_line(library, program), f"docket {library}")
        self.assertEqual(self.last_line(None, program), "docket None")
