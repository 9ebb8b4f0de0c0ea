"""What a program may lend as bytes."""

#: What the calls take. At run time any buffer that is a row of bytes will do.
Bytes = bytes | bytearray | memoryview


def lent(call: str, given: Bytes, most: int, is_text: bool = True, called: str = "") -> bytes:
    """The bytes given to a call that refuses more than `most` by their length alone: of more, at least one more. Where the
    call has other arguments too, `called` is the name of this one.

    Bytes are returned as they are; any other buffer is copied, since a thread may change it during the call.
    """
    if type(given) is bytes:
        return given
    if is_text and isinstance(given, str):
        raise TypeError(f"{call} takes bytes: read the file in binary mode, or encode the text as ASCII")
    try:
        view = memoryview(given)
    except TypeError:
        named = f" for {called}" if called else ""
        raise TypeError(f"{call} takes bytes{named}, not {type(given).__name__}") from None
    if view.ndim != 1 or view.itemsize != 1:
        shape = f"{view.ndim} dimensions with items of {view.itemsize} bytes"
        raise TypeError(f"{call} takes a row of bytes, not a buffer of {shape}")
    return view[: most + 1].tobytes()
