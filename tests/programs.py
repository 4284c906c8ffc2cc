"""For tests in Python: what a program prints for an input, and how it bears input and output that are not as they should be."""

import subprocess
import tempfile
import time

from library import SECOND


def printed_by(program, content):
    """What a program prints for an input. It must end well."""
    return subprocess.run(["./run", program], input=content, stdout=subprocess.PIPE, check=True).stdout


def printed_by_second(program, content):
    """What the second program prints in its place."""
    return subprocess.run([SECOND, program], input=content, stdout=subprocess.PIPE, check=True).stdout


def in_pieces(program, content, places):
    """What a program prints for an input that comes in pieces, which end at these places."""
    with subprocess.Popen(["./run", program], stdin=subprocess.PIPE, stdout=subprocess.PIPE) as child:
        for start, end in zip((0, *places), (*places, len(content))):
            child.stdin.write(content[start:end])
            child.stdin.flush()
            time.sleep(0.1)
        child.stdin.close()
        return child.stdout.read()


def try_files(tally, program, content, output, places):
    """Input without end is too long for a bundle. An input with a right answer may come in pieces, which end at these places.
    Input that cannot be read has no answer, and it is said why. Where the answer cannot be written nothing else is said."""

    def said(name, command, *expected):
        done = subprocess.run(["bash", "-c", f"./run {program} {command}"], capture_output=True, timeout=60, check=False)
        tally.same(f"{program}: {name}", expected, (done.stdout, done.stderr))

    cannot = f"{program}: standard input cannot be read to its end\n".encode()
    said("input without end", "</dev/zero", b"REFUSED 1 0\n", b"")
    said("a folder", "<tests", b"", cannot)
    said("closed standard input", "<&-", b"", cannot)
    tally.same(f"{program}: input in pieces", output, in_pieces(program, content, places))
    with tempfile.NamedTemporaryFile() as file:
        file.write(content)
        file.flush()
        said("closed standard output", f"<{file.name} >&-", b"", b"")
        said("standard output that is full", f"<{file.name} >/dev/full", b"", b"")
        said("standard output that nobody reads", f"<{file.name} | true", b"", b"")
