"""What the tests share: the repository's inputs, texts, and Python in a process of its own."""
import os
import re
import shutil
import subprocess
import sys
from collections.abc import Iterator
from pathlib import Path
from typing import BinaryIO

PYTHON = Path(__file__).resolve().parent.parent
ROOT = PYTHON.parent.parent
HEADER = ROOT / "hosts" / "c" / "docket.h"
LIBRARY = PYTHON / "docket" / "libdocket.so"
FOLDERS = ("tests/corpus", "tests/specimens", "examples", "examples/refusals")

NOTHING = "kind=report\ncost=none\ncostwriter=none\nbound=none\nboundwriter=none\ngap=none\nend=report\n"


def inputs() -> Iterator[tuple[str, bytes, bytes]]:
    """The name, the input and the listing of every committed input."""
    for folder in FOLDERS:
        for path in sorted((ROOT / folder).glob("*.txt")):
            yield f"{folder}/{path.name}", path.read_bytes(), path.with_suffix(".out").read_bytes()


def cut(whole: bytes) -> list[bytes]:
    """The texts of an input: each ends after a line that begins `end=`, the last with the input."""
    texts = [b""]
    for line in re.findall(rb"[^\n]*\n|[^\n]+", whole):
        texts[-1] += line
        if line.startswith(b"end="):
            texts.append(b"")
    return [text for text in texts if text]


PROBLEM, SCHEDULE, TREE = cut((ROOT / "examples" / "example.txt").read_bytes())


def schedule(first: int, second: int, writer: int) -> tuple[bytes, int]:
    """A schedule of the example's problem, with its cost: the units' outputs in period 2 vary."""
    text = f"kind=schedule\nwriter={writer}\nrun=60,{first}\nrun=0,{second}\nend=schedule\n"
    before, start = 100 + 10 * 60, 60
    return text.encode("ascii"), before + start + 100 + 10 * first + 40 + 14 * second


def large_problem() -> bytes:
    """A problem of 32 units and 48 periods that no schedule can meet."""
    loads = ",".join(["320000"] * 48)
    units = "unit=1,1,0,1,10000,1,1,1,10000,10000,0,0,0,0,1\n" * 32
    return f"kind=problem\nperiods=48\nunits=32\ndemand={loads}\nspare={loads}\n{units}end=problem\n".encode("ascii")


def run_python(
    *arguments: str,
    folder: Path = PYTHON,
    library: str | None = None,
    seconds: int = 60,
    stdout: int | BinaryIO = subprocess.PIPE,
) -> subprocess.CompletedProcess[str]:
    """What Python does with the arguments in a process of its own, with the folder's package and with an environment
    that names the library or none."""
    environment = {name: value for name, value in os.environ.items() if name != "DOCKET_LIBRARY"}
    environment["PYTHONPATH"] = str(folder)
    if library is not None:
        environment["DOCKET_LIBRARY"] = library
    command = [sys.executable, *arguments]
    return subprocess.run(
        command, cwd=ROOT, env=environment, stdout=stdout, stderr=subprocess.PIPE, text=True, timeout=seconds
    )


def copy_package(folder: Path) -> Path:
    """The folder, with a copy of the package without a library."""
    shutil.copytree(PYTHON / "docket", folder / "docket", ignore=shutil.ignore_patterns("*.so", "__pycache__"))
    return folder
