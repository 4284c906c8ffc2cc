"""For tests in Python: sheets, right and wrong, and bundles laid out for a test.

A sheet is a block: byte i - 1 is the code of name i, the bytes from R to 507 are 0, byte 508 is 100, byte 509 is R, and the check
is that of every block. Blocks are laid out by tests/make-bundles.
"""

from importlib.machinery import SourceFileLoader
from importlib.util import module_from_spec, spec_from_loader

SHEET_BYTES = 512


def script(name):
    """What a script of the tests defines; it is not run."""
    loader = SourceFileLoader(name.replace("-", "_"), f"tests/{name}")
    module = module_from_spec(spec_from_loader(loader.name, loader))
    loader.exec_module(module)
    return module


blocks = script("make-bundles")
bundle = blocks.bundle
house = blocks.house
house_of_32 = blocks.house_of_32
HOUSE_NAMES_OF_32 = blocks.HOUSE_NAMES_OF_32


def sheet(*codes):
    """The sheet with these codes, that of name 1 first."""
    return changed(codes)


def changed(codes, *changes, checked=True):
    """The sheet with these codes and some bytes changed, each given as place and value. Its check fits, or is that of before."""
    block = bytearray(SHEET_BYTES)
    block[: len(codes)] = codes
    block[508:510] = 100, len(codes)
    block = bytearray(blocks.checked(block))
    for place, value in changes:
        block[place] = value
    return blocks.checked(block) if checked else bytes(block)


def with_check(block, value):
    """The block with another check."""
    block = bytearray(block)
    blocks.store_check(block, value)
    return bytes(block)


def wrong_sheets(codes):
    """Every way in which a sheet for these codes can be wrong, and each such sheet. Where nothing else is said its check fits."""
    names, right = len(codes), sheet(*codes)
    check = blocks.check(right)
    return {
        **{f"{length} bytes": (right + bytes(4096))[:length] for length in (0, 1, 508, 510, 511, 513, 1024, 3584)},
        "a block of zeros": bytes(SHEET_BYTES),
        "the low byte of its check wrong": with_check(right, check ^ 1),
        "the high byte of its check wrong": with_check(right, check ^ 256),
        "the bytes of its check exchanged": with_check(right, check % 256 * 256 + check // 256),
        "a check without its 1": with_check(right, check - 1),
        "a check of 0": with_check(right, 0),
        "a code changed, the check as before": changed(codes, (0, codes[0] % 6 + 1), checked=False),
        "byte 508 changed, the check as before": changed(codes, (508, 0), checked=False),
        "code 0 of the first name": changed(codes, (0, 0)),
        "code 0 of the last name": changed(codes, (names - 1, 0)),
        "code 7 of the first name": changed(codes, (0, 7)),
        "code 7 of the last name": changed(codes, (names - 1, 7)),
        "code 8": changed(codes, (names - 1, 8)),
        "code 255": changed(codes, (0, 255)),
        "code 128 more than a right one": changed(codes, (0, codes[0] + 128)),
        "a code behind the last name": changed(codes, (names, 3)),
        "byte R not 0": changed(codes, (names, 255)),
        "byte 255 not 0": changed(codes, (255, 1)),
        "byte 507 not 0": changed(codes, (507, 1)),
        "byte 508 is 0": changed(codes, (508, 0)),
        "byte 508 is 99": changed(codes, (508, 99)),
        "byte 508 is 101": changed(codes, (508, 101)),
        "byte 508 is 1": changed(codes, (508, 1)),
        "byte 508 and 509 exchanged": changed(codes, (508, names), (509, 100)),
        "byte 509 is 0": changed(codes, (509, 0)),
        "byte 509 is R - 1": changed(codes, (509, names - 1)),
        "byte 509 is R + 1": changed(codes, (509, names + 1)),
        "byte 509 is 255": changed(codes, (509, 255)),
        "a sheet for a name less": sheet(*codes[:-1]),
        "a sheet for a name more": sheet(*codes, codes[-1]),
        "a sheet for no name": sheet(),
        "block 0 of a bundle": blocks.house()[:SHEET_BYTES],
        "block 1 of a bundle": blocks.house()[SHEET_BYTES:],
    }
