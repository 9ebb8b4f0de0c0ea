"""What a program may lend as a text, and what not."""
import array
import ctypes
import mmap
import tempfile
import unittest

import docket
from common import NOTHING, PROBLEM, SCHEDULE
from docket import Docket, Held, Problem, Refused, Schedule

CALLS = {"lodge": lambda given: Docket().lodge(given), "listing": docket.listing}


class Longer(bytes):
    """Bytes that say they are more than they are."""

    def __len__(self) -> int:
        return 1 << 40


class Arguments(unittest.TestCase):
    def refuses(self, given: object, sentence: str) -> None:
        """Each call refuses what is given by a TypeError of this sentence, NAME being its name."""
        for name, call in CALLS.items():
            with self.assertRaises(TypeError) as caught:
                call(given)
            self.assertEqual(str(caught.exception), sentence.replace("NAME", name))

    def takes(self, given: object) -> None:
        """Each call takes what is given for the example's problem."""
        self.assertEqual(Docket().lodge(given).verdict, Held(Problem()))
        self.assertEqual(docket.listing(given), b"answer=held\n" + NOTHING.encode("ascii"))

    def test_no_bytes(self) -> None:
        words = "NAME takes bytes: read the file in binary mode, or encode the text as ASCII"
        for text in ("", PROBLEM.decode("ascii"), "ü\udcff"):
            self.refuses(text, words)
        for given in (None, 5, 5.0, [1, 2], (1,), {}, object(), Docket()):
            self.refuses(given, f"NAME takes bytes, not {type(given).__name__}")

    def test_no_row_of_bytes(self) -> None:
        words = "NAME takes a row of bytes, not a buffer of {} dimensions with items of {} bytes"
        self.refuses(memoryview(bytes(6)).cast("B", (2, 3)), words.format(2, 1))
        self.refuses(memoryview(bytes(1)).cast("B", ()), words.format(0, 1))
        self.refuses(memoryview(bytes(8)).cast("H"), words.format(1, 2))
        self.refuses(array.array("Q", [1, 2]), words.format(1, 8))
        self.refuses((ctypes.c_uint8 * 2 * 2)(), words.format(2, 1))

    def test_buffers(self) -> None:
        for given in (PROBLEM, bytearray(PROBLEM), array.array("B", PROBLEM), array.array("b", PROBLEM)):
            self.takes(given)
            self.takes(memoryview(given))
            self.takes(memoryview(given).toreadonly())
        self.takes((ctypes.c_char * len(PROBLEM))(*PROBLEM))
        self.takes((ctypes.c_ubyte * len(PROBLEM))(*PROBLEM))
        self.takes(memoryview(PROBLEM).cast("c"))

    def test_parts_of_buffers(self) -> None:
        for whole in (b"??" + PROBLEM + b"?", bytearray(b"??" + PROBLEM + b"?")):
            self.takes(memoryview(whole)[2:-1])
        self.takes(memoryview(PROBLEM[::-1])[::-1])
        self.takes(memoryview(bytes(byte for byte in PROBLEM for _ in range(3)))[::3])

    def test_an_empty_text(self) -> None:
        for given in (b"", bytearray(), memoryview(b""), memoryview(b"ab")[1:1], array.array("B")):
            self.assertEqual(Docket().lodge(given).verdict, Refused(12, 1, 0, 0))
            self.assertEqual(docket.listing(given), NOTHING.encode("ascii"))

    def test_a_mapped_file(self) -> None:
        with tempfile.TemporaryFile() as file:
            file.write(PROBLEM)
            file.flush()
            with mmap.mmap(file.fileno(), 0, access=mmap.ACCESS_READ) as mapped:
                self.takes(mapped)

    def test_bytes_that_say_they_are_more(self) -> None:
        self.takes(Longer(PROBLEM))

    def test_a_buffer_is_let_go(self) -> None:
        text = bytearray(PROBLEM)
        desk = Docket()
        desk.lodge(text)
        text[:] = SCHEDULE
        text += b"\n"
        del text[-1]
        self.assertEqual(desk.lodge(text).verdict, Held(Schedule(1980)))

    def test_nothing_is_written_to_a_buffer(self) -> None:
        text = bytearray(PROBLEM)
        self.takes(text)
        self.assertEqual(text, PROBLEM)

    def test_a_released_view(self) -> None:
        view = memoryview(PROBLEM)
        view.release()
        for call in CALLS.values():
            self.assertRaises(ValueError, call, view)

    def test_a_wrong_argument_changes_nothing(self) -> None:
        desk = Docket()
        desk.lodge(PROBLEM)
        desk.lodge(SCHEDULE)
        before = desk.report()
        self.assertRaises(TypeError, desk.lodge, "end=schedule\n")
        self.assertEqual(desk.report(), before)
