"""For tests in Python: calls the library through its C interface, and counts comparisons.

A case is one call of the library. The harness, tests/c/harness.c, makes many calls in one run and brings back all that each
call can change: its result, and every word and byte that was lent. The second program answers the same cases by its own
rules. What both write has one format, which second/exchange.rs describes.

A group in Python compares as a group in bash does with tests/lib.sh: each comparison prints a line, and the last line of the
group is `N passed, M failed`. Everything here runs in the root of the repository.
"""

import struct
import subprocess
import sys
import tempfile
from collections import namedtuple
from pathlib import Path

NAMES = 32
TABLE_WORDS = 1024
SLIP_BYTES = 61440
LINE_BYTES = 8

# What lent memory is filled with before a call.
FILL_WORD = 0xA5A5A5A5
FILL_BYTE = 0x5A

SEARCH, CHECK, TABLES = 0, 1, 2
YES, NO, UNSURE = 1, 2, 3

SECOND = "target/tests/second"


# ---- cases

Case = namedtuple("Case", "kind bundle question sure_words possible_words slip_bytes slip")


def search(bundle, question, sure_words=TABLE_WORDS, possible_words=TABLE_WORDS, slip_bytes=SLIP_BYTES):
    """A search; the question is person, entity, role name."""
    return Case(SEARCH, bundle, question, sure_words, possible_words, slip_bytes, b"")


def check(bundle, question, slip):
    return Case(CHECK, bundle, question, 0, 0, len(slip), slip)


def tables(bundle, sure_words=TABLE_WORDS, possible_words=TABLE_WORDS):
    return Case(TABLES, bundle, (0, 0, 0), sure_words, possible_words, 0, b"")


def case_bytes(case):
    lengths = len(case.bundle), case.sure_words, case.possible_words, case.slip_bytes
    group = 0
    return bytes([case.kind, group, *case.question]) + struct.pack("<4I", *lengths) + case.bundle + case.slip


# ---- results: the five numbers that a call returns

Result = namedtuple("Result", "number place verdict rounds lines")


def unpacked(packed):
    return Result(packed >> 56, packed >> 40 & 0xFFFF, packed >> 32 & 0xFF, packed >> 16 & 0xFFFF, packed & 0xFFFF)


def refused(number, place):
    return Result(number, place, 0, 0, 0)


def accepted(lines):
    return Result(0, 0, 0, 0, lines)


def answered(verdict, rounds, lines=0):
    return Result(0, 0, verdict, rounds, lines)


# ---- answers: the result, and lent memory after the call

Answer = namedtuple("Answer", "result sure possible slip")


def answers_in(content, cases):
    """The answers to the cases, in their order, from what the harness or the second program wrote."""
    place = 0
    for case in cases:
        form = f"<Q{case.sure_words}I{case.possible_words}I"
        packed, *words = struct.unpack_from(form, content, place)
        place += struct.calcsize(form)
        end = place + (case.slip_bytes if case.kind == SEARCH else 0)
        yield Answer(unpacked(packed), words[: case.sure_words], words[case.sure_words :], content[place:end])
        place = end
    if place != len(content):
        raise ValueError("more answers than cases")


def harness_answers(harness, content):
    """What the harness of this name answers to cases, which are given as bytes."""
    program = ["./run", "--file", f"target/tests/{harness}"]
    return subprocess.run(program, input=content, stdout=subprocess.PIPE, check=True).stdout


def second_answers(command, content):
    """What the second program answers to cases by its command of this name."""
    with tempfile.TemporaryDirectory() as folder:
        asked, came = Path(folder) / "cases", Path(folder) / "answers"
        asked.write_bytes(content)
        subprocess.run([SECOND, command, asked, came], check=True)
        return came.read_bytes()


def call(cases):
    """What the library answers to each case."""
    return list(answers_in(harness_answers("harness", b"".join(map(case_bytes, cases))), cases))


def call_second(cases):
    """What the second program answers to each case."""
    return list(answers_in(second_answers("answer", b"".join(map(case_bytes, cases))), cases))


def untouched(answer):
    """Whether all lent memory is as it was filled."""
    words = set(answer.sure) | set(answer.possible)
    return words <= {FILL_WORD} and set(answer.slip) <= {FILL_BYTE}


# ---- tables and slips in a form that can be written by hand


def table(members):
    """The 1,024 words of a table, from the members of each role: {(entity, name): people}."""
    words = [0] * TABLE_WORDS
    for (entity, name), people in members.items():
        for person in people:
            words[NAMES * (entity - 1) + name - 1] |= 1 << (person - 1)
    return words


def has(words, question):
    """Whether a table holds the fact that a question asks for."""
    person, entity, name = question
    return words[NAMES * (entity - 1) + name - 1] >> (person - 1) & 1 == 1


def slip_of(lines):
    """The bytes of a slip, from its lines: member, credential, three premises."""
    return b"".join(struct.pack("<2B3H", *line) for line in lines)


def facts_of(bundle, slip):
    """What the lines of a slip state: the member, and the two bytes of the head of the credential."""
    facts = []
    for place in range(0, len(slip), LINE_BYTES):
        member, credential = slip[place : place + 2]
        block, number = divmod(credential - 1, 40)
        record = 512 * (block + 1) + 12 * number
        facts.append((member, bundle[record + 1 : record + 3]))
    return facts


# ---- comparing and counting


class Tally:
    def __init__(self):
        self.passed = 0
        self.failed = 0

    def note(self, name, right, *difference):
        if right:
            self.passed += 1
            print(f"ok: {name}", flush=True)
            return
        self.failed += 1
        print(f"FAILED: {name}", *difference, sep="\n    ", flush=True)

    def same(self, name, expected, actual):
        self.note(name, expected == actual, f"expected {str(expected)[:300]}", f"actual   {str(actual)[:300]}")

    def same_words(self, name, expected, actual):
        """Compares two tables, and shows the first word that differs."""
        pairs = list(enumerate(zip(expected, actual)))
        differing = [f"word {i}: expected {e:#010x}, came {a:#010x}" for i, (e, a) in pairs if e != a]
        lengths = f"{len(expected)} words expected, {len(actual)} came"
        self.note(name, list(expected) == list(actual), *differing[:1], lengths)

    def needs(self, *names):
        """Builds what the group runs, by tests/build. A build that fails is a failure, and ends the group."""
        if subprocess.run(["tests/build", *names], check=False).returncode != 0:
            self.note("tests/build " + " ".join(names), False)
            self.finish()

    def run(self, parts):
        """Runs the parts of a group. A part that cannot go on is a failure, and the next part starts."""
        for part in parts:
            try:
                part(self)
            except Exception as error:  # pylint: disable=broad-exception-caught # whatever it is, it is counted
                self.note(f"{part.__name__} stopped", False, repr(error))

    def run_for_each(self, asked, parts, others=()):
        """Runs the parts of a group for each of those who are asked, which have names, and then others once."""

        def part_for(part, who):
            def run(tally):
                part(tally, who)

            run.__name__ = f"{who.name}: {part.__name__}"
            return run

        self.run([part_for(part, who) for who in asked for part in parts] + list(others))

    def finish(self):
        """Prints the last line, and ends with status 0 only where something was compared and nothing failed."""
        if self.passed + self.failed == 0:
            self.note("nothing was compared", False)
        print(f"{self.passed} passed, {self.failed} failed", flush=True)
        sys.exit(1 if self.failed else 0)
