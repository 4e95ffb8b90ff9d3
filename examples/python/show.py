#!/usr/bin/env python3
"""Shows the caption of one slot or, instead of it, the word of the refusal.

    make shared
    python3 examples/python/show.py SHEET SLOT KEYS [TERMS DATE]

KEYS names a file with two lines of hex digits, the sealing and the checking key.
With a term sheet and a date, YYYY-MM-DD, a slot is shown only while it is on show.
Exits with the number of the refusal, 64 for wrong usage, 65 where KEYS isn't two
lines of hex digits, 66 where a file can't be read, 74 where standard output fails.
"""

import ctypes
import pathlib
import re
import sys

LIBRARY = pathlib.Path(__file__).resolve().parents[2] / "build" / "libcaptions_c.so"
FIELD = 192
SIZE_MAX = 2**64 - 1
HEX = rb"((?:[0-9a-fA-F]{2})*)"
WORDS = ("accepted", "wrong key", "twin keys", "wrong span", "unfit sheet", "other key class",
         "no such slot", "overlong", "worn", "blank", "altered", "no such date", "not on show",
         "no such round", "other keys", "broken text")
RULE_WORDS = ("no rule", "fewer than 8 bytes", "not 1 to 256 slots (bytes 0 and 1)",
              "not a key class of its edition (byte 2)", "not edition 1, 2 or 3 (byte 3)",
              "a byte of the header that is not zero", "another length than so many slots have",
              "no write number, or one above the sheet's last", "a length above 192",
              "a byte of its mark that is not zero", "the check differs",
              "a byte behind the caption that is not zero", "the term sheet does not fit")


class Pointed(ctypes.Structure):
    """captions_pointed of include/captions.h."""

    _fields_ = [("number", ctypes.c_uint8), ("rule", ctypes.c_uint8), ("length", ctypes.c_uint16),
                ("slot", ctypes.c_uint16), ("place", ctypes.c_uint16)]


class Day(ctypes.Structure):
    """captions_day of include/captions.h."""

    _fields_ = [("number", ctypes.c_uint8), ("day", ctypes.c_uint16)]


def call(name: str, result: type, *words) -> ctypes.Structure:
    """What a call answers to numbers, and to bytes, which are lent with their length."""
    types, values = [], []
    for word in words:
        if isinstance(word, int):
            # A Python number has any size, and size_t would keep its low bits alone.
            types += [ctypes.c_size_t]
            values += [min(word, SIZE_MAX)]
        else:
            types += [ctypes.c_char_p, ctypes.c_size_t]
            values += [word, len(word)]
    function = getattr(ctypes.CDLL(str(LIBRARY)), name)
    function.argtypes, function.restype = types, result
    return function(*values)


def read(name: str, *words) -> tuple[int, bytes]:
    """The number that a read answers, and the caption where it is 0."""
    window = ctypes.create_string_buffer(FIELD)
    answer = call(name, Pointed, *words, window)
    if answer.rule != 0:
        print(f"{RULE_WORDS[answer.rule]} (rule {answer.rule}, slot {answer.slot}, "
              f"place {answer.place})", file=sys.stderr)
    return answer.number, window.raw[: answer.length]


def day_of(date: str) -> int:
    """The day of a date. What is no date becomes SIZE_MAX, which is no day either."""
    if not re.fullmatch("[0-9]{4}-[0-9]{2}-[0-9]{2}", date):
        return SIZE_MAX
    answer = call("captions_day_of_date", Day, *map(int, date.split("-")))
    return answer.day if answer.number == 0 else SIZE_MAX


def main(words: list[str]) -> int:
    if len(words) not in (3, 5) or not re.fullmatch("[0-9]+", words[1]):
        print("usage: show.py SHEET SLOT KEYS [TERMS DATE]", file=sys.stderr)
        return 64
    try:
        two_lines = HEX + rb"\r?\n(?!\Z)" + HEX + rb"(?:\r?\n)?"
        keys = re.fullmatch(two_lines, pathlib.Path(words[2]).read_bytes())
        if keys is None:
            print(f"{words[2]}: not two lines of hex digits", file=sys.stderr)
            return 65
        pair = [bytes.fromhex(key.decode()) for key in keys.groups()]
        sheet, slot = pathlib.Path(words[0]).read_bytes(), int(words[1])
        if len(words) == 3:
            number, caption = read("captions_read", *pair, sheet, slot)
        else:
            terms, day = pathlib.Path(words[3]).read_bytes(), day_of(words[4])
            number, caption = read("captions_dated_read", *pair, sheet, terms, slot, day)
    except OSError as error:
        print(f"show.py: {error}", file=sys.stderr)
        return 66
    try:
        with open(1, "wb", closefd=False) as output:
            output.write((caption if number == 0 else WORDS[number].encode()) + b"\n")
    except OSError as error:
        print(f"show.py: {error}", file=sys.stderr)
        return 74
    return number


if __name__ == "__main__":
    sys.exit(main(sys.argv[1:]))
