#!/usr/bin/env python3
"""lodge_files.py FILE..: lodges the files in one docket, one text to a file; prints the answers, then the report."""
import signal
import sys

try:
    import docket
except ImportError as error:
    sys.exit(f"{sys.argv[0]}: {error}")


def fail(sentence: str) -> int:
    """Tells what is wrong; the exit status."""
    print(f"{sys.argv[0]}: {sentence}", file=sys.stderr)
    return 1


def say(line: str) -> None:
    """Prints what may end the program where it cannot be written."""
    try:
        print(line, end="", flush=True)
    except OSError as error:
        sys.stdout = None
        sys.exit(fail(f"cannot write the answers: {error.strerror}"))


def main(names: list[str]) -> int:
    desk = docket.Docket()
    for name in names:
        try:
            with open(name, "rb") as file:
                text = file.read(docket.MOST_TEXT + 1)
        except OSError as error:
            return fail(f"cannot read {name}: {error.strerror}")
        say(f"{desk.lodge(text)}\n")
    say(str(desk.report()))
    return 0


if __name__ == "__main__":
    if len(sys.argv) < 2:
        print(f"usage: {sys.argv[0]} FILE..", file=sys.stderr)
        sys.exit(2)
    # a reader who wants no more ends the program without a word
    signal.signal(signal.SIGPIPE, signal.SIG_DFL)
    sys.exit(main(sys.argv[1:]))
