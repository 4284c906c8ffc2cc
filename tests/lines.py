"""For tests in Python: cases for text lines, which the library and the second program read and write.

What a case and an answer are, and who is asked, is as in tests/writer.py. tests/c/lines_harness.c makes the calls through the C
interface, and second/text_exchange.rs describes the format.
"""

from writer import Case

READ, WRITE = 6, 7


def read(sizes, text, buffer):
    """Reads a text over so many entities and names; the buffer is for the records."""
    return Case(READ, (*sizes, 0), (len(text), 0, 0), buffer, text)


def write(sizes, records, buffer):
    """Writes records as a text; the buffer is for the text."""
    return Case(WRITE, (*sizes, 0), (len(records), 0, 0), buffer, records)
