"""For tests in Python: asks for the holders of a record, through the library's C interface and of the second program.

tests/c/holders_harness.c makes the calls; the second program answers the same cases by its own rules. What both write has one
format, which second/holder_exchange.rs describes.
"""

import struct
from collections import namedtuple

from library import harness_answers, second_answers
from programs import printed_by, printed_by_second

KIND = 8

Case = namedtuple("Case", "bundle sheet record")


def case_bytes(case):
    group = 0
    lengths = struct.pack("<4I", len(case.bundle), len(case.sheet), 0, 0)
    return bytes([KIND, group, case.record, 0, 0]) + lengths + case.bundle + case.sheet


# ---- results

ILL = 0


def well(*shelves):
    """The record is structurally well typed, and these shelves must hold it."""
    return 1 << 32 | sum(1 << (shelf - 1) for shelf in set(shelves))


def refused(number, place):
    return number << 56 | place << 40


def in_words(result):
    """A result that is no refusal, as the program holders says it."""
    if result == ILL:
        return "ILL"
    return " ".join(["WELL", *(str(shelf) for shelf in range(1, 33) if result >> (shelf - 1) & 1)])


def text_of(results):
    """What the program holders prints for records with these results."""
    lines = [f"{number} {in_words(result)}" for number, result in enumerate(results, 1)]
    ill = results.count(ILL)
    return "".join(f"{line}\n" for line in [*lines, f"END {len(results) - ill} {ill}"])


# ---- those who are asked


def call_library(cases):
    return results_in(harness_answers("holders_harness", b"".join(map(case_bytes, cases))))


def call_second(cases):
    return results_in(second_answers("answer-holders", b"".join(map(case_bytes, cases))))


def results_in(content):
    return [result for (result,) in struct.iter_unpack("<Q", content)]


# `call` answers cases, and `run` an input of the program holders.
Who = namedtuple("Who", "name call run")

SECOND_PROGRAM = Who("second program", call_second, lambda content: printed_by_second("holders", content))
LIBRARY = Who("library", call_library, lambda content: printed_by("holders", content))
