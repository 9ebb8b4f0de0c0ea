"""Reads a journal by its description alone: prints each text's number, length and answer, then the last check."""

import hashlib
import sys


def sha(data: bytes) -> bytes:
    return hashlib.sha256(data).hexdigest().encode()


def line(data: bytes, at: int) -> tuple[bytes, int]:
    end = data.index(b"\n", at)
    return data[at:end], end + 1


def checked(words: bytes, before: bytes) -> tuple[list[bytes], bytes]:
    said, _, check = words.rpartition(b" ")
    assert check == sha(before + b" " + said), "a check fails"
    return said.split(b" "), check


def read(data: bytes) -> None:
    first, at = line(data, 0)
    said, _, check = first.rpartition(b" ")
    assert said.startswith(b"docket journal 1 rules ") and check == sha(said), "no first line"
    number = 0
    while at < len(data):
        words, at = line(data, at)
        (word, length, _, total), check = checked(words, check)
        assert word == b"text", "no text"
        text, at = data[at : at + int(length)], at + int(length)
        assert sha(text) == total and data[at : at + 1] == b"\n", "a text's sum fails"
        words, at = line(data, at + 1)
        (word, answer), check = checked(words, check)
        assert word == b"answer", "no answer"
        number += 1
        print(number, len(text), answer.decode())
    print("check", check.decode())


with open(sys.argv[1], "rb") as file:
    read(file.read())
