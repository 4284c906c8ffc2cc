"""For tests in Python: searches and tables with a sheet, through the library's C interface and of the second program.

tests/c/sheet_harness.c makes the calls; the second program answers the same cases by its own rules. What both write has one
format, which second/with_sheet_exchange.rs describes. A case is one of tests/library.py with a sheet beside it, and so is an
answer.
"""

import struct
from collections import namedtuple

import library
from library import SEARCH, answers_in, case_bytes, harness_answers, search, second_answers, tables
from programs import printed_by, printed_by_second

WITH_SHEET_SEARCH, WITH_SHEET_TABLES = 9, 10

Case = namedtuple("Case", "case sheet")


def search_with(sheet, *asked, **lent):
    """A search; the bundle and the question follow the sheet."""
    return Case(search(*asked, **lent), sheet)


def tables_with(sheet, *asked, **lent):
    return Case(tables(*asked, **lent), sheet)


def cases_bytes(cases):
    content = b""
    for case, sheet in cases:
        kind = WITH_SHEET_SEARCH if case.kind == SEARCH else WITH_SHEET_TABLES
        content += case_bytes(case._replace(kind=kind)) + struct.pack("<I", len(sheet)) + sheet
    return content


def answers_to(cases, content):
    return list(answers_in(content, [case for case, _ in cases]))


def call_library(cases):
    return answers_to(cases, harness_answers("sheet_harness", cases_bytes(cases)))


def call_second(cases):
    return answers_to(cases, second_answers("answer-sheets", cases_bytes(cases)))


# `call` answers cases with a sheet, `alone` those without one, and `run` an input of the program ask_with_sheet.
Who = namedtuple("Who", "name call alone run")

PROGRAM = "ask_with_sheet"
SECOND_PROGRAM = Who("second program", call_second, library.call_second, lambda content: printed_by_second(PROGRAM, content))
LIBRARY = Who("library", call_library, library.call, lambda content: printed_by(PROGRAM, content))
