"""For tests in Python: calls the library's functions that write to a lent buffer through their C interface, and the second
program's: the writer's, and those of tests/lines.py.

A case is one call, or a few that belong together, with the lent buffer as it stands before. A harness, as
tests/c/write_harness.c, makes the calls and brings back their results and the buffer after them; the second program answers the
same cases by its own rules. What both write has one format, which second/writer_exchange.rs describes.
"""

import struct
from collections import namedtuple
from pathlib import Path

from library import harness_answers, second_answers

WRITE, APPEND, CHAIN, SLIP = 2, 3, 4, 5
RECORD_BYTES = 12


# ---- cases: the kind, three bytes, three numbers besides the buffer's, the buffer, and what else is handed over

Case = namedtuple("Case", "kind letters numbers buffer handed")

# What a bundle is written from: the numbers of entities and names, the marks, and the records one after the other.
Content = namedtuple("Content", "entities names marks records")


def write(content, buffer):
    lengths = len(content.marks), len(content.records), 0
    return Case(WRITE, (content.entities, content.names, 0), lengths, buffer, content.marks + content.records)


def append(buffer, length, record):
    return Case(APPEND, (0, 0, 0), (len(record), length & 0xFFFFFFFF, length >> 32), buffer, record)


def chain(content, first, buffer):
    """Writes so many records, and appends the others one by one."""
    lengths = len(content.marks), len(content.records), first
    return Case(CHAIN, (content.entities, content.names, 0), lengths, buffer, content.marks + content.records)


def slip_around(question, buffer, length, record, slip):
    """Has a slip checked, appends a record, and has the slip checked again."""
    return Case(SLIP, question, (len(record), length, len(slip)), buffer, record + slip)


def case_bytes(case):
    group = 0
    numbers = struct.pack("<4I", len(case.buffer), *case.numbers)
    return bytes([case.kind, group, *case.letters]) + numbers + case.buffer + case.handed


# ---- answers: the results, and the buffer after the last call

Answer = namedtuple("Answer", "results buffer")


def written(length):
    return length


def refused(number, place):
    return number << 56 | place


def answers_in(content, cases):
    place = 0
    for case in cases:
        form = "<3Q" if case.kind == SLIP else "<Q"
        results = struct.unpack_from(form, content, place)
        place += struct.calcsize(form)
        yield Answer(results, content[place : place + len(case.buffer)])
        place += len(case.buffer)
    if place != len(content):
        raise ValueError("more answers than cases")


# ---- those who are asked: each answers cases, and has a name

Who = namedtuple("Who", "name call")


def library(harness):
    """The library, called by the harness of this name."""

    def call(cases):
        return list(answers_in(harness_answers(harness, b"".join(map(case_bytes, cases))), cases))

    return Who("library", call)


def second_program(command):
    """The second program, which answers this kind of cases by its command of this name."""

    def call(cases):
        return list(answers_in(second_answers(command, b"".join(map(case_bytes, cases))), cases))

    return Who("second program", call)


def ask_everyone(tally, parts, command, harness, others=(), *needed):
    """Runs the parts of a group with the second program and with the library, and then others once; they may need more."""
    tally.needs("second", harness, *needed)
    tally.run_for_each([second_program(command), library(harness)], parts, others)
    tally.finish()


# ---- comparing: each case has a name, and what must come back


def compare(tally, who, cases):
    answers = who.call([case for _, case, _ in cases])
    for (name, _, expected), answer in zip(cases, answers):
        tally.note(f"{who.name}: {name}", tuple(answer) == expected, f"expected {expected[0]}", f"came     {answer.results}")


def leads_to(buffer, content):
    """What must come of a call that leaves this content in a buffer: its length, and the rest of the buffer as it was."""
    return (written(len(content)),), content + buffer[len(content) :]


def stays(name, case, number, place):
    """A refused case: the result, and the buffer as it was."""
    return name, case, ((refused(number, place),), case.buffer)


# ---- what cases are made of


def record(*used):
    """The twelve bytes of a record, from its bytes with trailing zeros left off."""
    return bytes(used) + bytes(RECORD_BYTES - len(used))


def buffer_of(length, content=b""):
    """A buffer with some content in it, and a pattern behind."""
    pattern = bytes(range(1, 252)) * (length // 251 + 1)
    return content + pattern[len(content) : length]


# ---- stored bundles

BUNDLES = Path("tests/data/bundles")
READER_ANSWERS = Path("tests/data/expected-reader")


def stored(name):
    return (BUNDLES / name).read_bytes()


def stored_answers(word):
    """The names of the stored bundles whose answer starts with this word, each with the numbers that follow."""
    lines = [line.split() for line in READER_ANSWERS.read_text().splitlines()]
    return [(line[0], *map(int, line[2:])) for line in lines if line[1:2] == [word]]


def content_of(bundle):
    """What a bundle says, read off its bytes."""
    blocks = [bundle[start : start + 512] for start in range(512, len(bundle), 512)]
    records = b"".join(block[: RECORD_BYTES * block[509]] for block in blocks)
    return Content(bundle[1], bundle[2], bundle[4:36], records)
