"""The unit commitment docket for Python, over the proved archive `libdocket_host.a`.

    desk = docket.Docket()
    answer = desk.lodge(open("problem.txt", "rb").read())
    print(answer, desk.report().gap)

What texts, answers and reports are and what the number of a refusal means is in the repository's README.md. A text of
more than MOST_TEXT bytes is refused by 11, and so is an input of more than MOST_INPUT bytes that is listed. A tree's
bound is a number or NEVER.

What each call answers, for every text, is proved; hosts/c/docket.h says what the library's calls promise. Not proved
is this package, which lends them memory and gives their answers as Python values.

The library is looked for beside this package (`libdocket.so`, which hosts/python/build.sh writes), then in the file
that the environment variable DOCKET_LIBRARY names, which counts only where none stands beside the package. Where there
is none, `import docket` is an ImportError that says so.

A call needs STACK_BYTES of stack, 1 MiB, besides what Python uses. The main thread has 8 MiB unless `ulimit -s` says
otherwise, and so has every thread where `threading.stack_size` was not set. Who sets it gives
`threading.stack_size(2 * docket.STACK_BYTES)` or more: with less, the process may end at the stack's guard page.
"""
import sys

if sys.version_info < (3, 10):
    raise ImportError("docket needs Python 3.10 or later")

from ._docket import Docket
from ._library import MOST_INPUT, MOST_TEXT, STACK_BYTES
from ._listing import listing, rules
from .answer import NEVER, Answer, Figures, Held, Never, Passed, Problem, Refused, Schedule, Tree, Verdict
from .forced import Forced, ForcedStatuses
from .report import Report
from .runs import CheapestRuns, Draft, Stuck
from .taken import Fixed, UnitsTaken

__all__ = [
    "MOST_INPUT",
    "MOST_TEXT",
    "NEVER",
    "STACK_BYTES",
    "Answer",
    "CheapestRuns",
    "Docket",
    "Draft",
    "Figures",
    "Fixed",
    "Forced",
    "ForcedStatuses",
    "Held",
    "Never",
    "Passed",
    "Problem",
    "Refused",
    "Report",
    "Schedule",
    "Stuck",
    "Tree",
    "UnitsTaken",
    "Verdict",
    "listing",
    "rules",
]
