"""The calls that need no open docket."""
import ctypes

from ._lent import Bytes, lent
from ._library import MOST_INPUT, OUTPUT_BYTES, checked, library

_Output = ctypes.c_char * OUTPUT_BYTES


def rules() -> int:
    """The number of the rules by which texts are judged. It goes up where some text gets another answer than before."""
    return library.docket_rules()


def listing(input: Bytes) -> bytes:
    """The input's listing: a line for each answer to its texts, lodged in turn in one fresh docket, then the report.

    A text ends after each line that begins `end=`. An input of more than MOST_INPUT bytes gets the one answer 11.
    """
    given = lent("listing", input, MOST_INPUT)
    output = _Output()
    written = library.docket_listing(given, len(given), output, OUTPUT_BYTES)
    return memoryview(output)[: checked(written)].tobytes()
