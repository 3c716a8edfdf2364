"""The layout of a sheet (docs/SHEET.md): header, font records, item records, and the limits on their numbers."""
import struct
from collections import namedtuple
from functools import lru_cache

EDITION = 1
HEADER_SIZE, FONT_SIZE, ITEM_SIZE = 24, 28, 28
MOST_BYTES = 65_536
MOST_SIDE, MOST_AREA = 512, 65_536
MOST_FONTS, MOST_ITEMS = 4, 64
MOST_CELL = 64
MOST_ATLAS_WIDTH = 1_024
MOST_SPELLED = 65_536
MOST_SLOT = 256
MOST_HEIGHT = 1_000

ALIGNMENTS = ("left", "centre", "right")
BASELINES = ("Top", "Bottom", "Middle", "Alphabetic")
HEIGHT_KINDS = ("pixels", "percent")

HEADER_FORM = struct.Struct("<HHHBBHHIII")
FONT_FORM = struct.Struct("<IIIHHH8BH")
ITEM_FORM = struct.Struct("<hhIHH12BHH")

Header = namedtuple("Header", "edition width height paper fonts items zero fonts_at items_at length")
Font = namedtuple("Font", "atlas_at atlas_length mapping_at mapping_length replacement atlas_width cw ch s baseline "
                          "strikethrough_offset strikethrough_height underline_offset underline_height zero")
Item = namedtuple("Item", "x y slot_at slot_size text_length font text_mode text_grey background_mode background_grey "
                          "underline_mode underline_grey strikethrough_mode strikethrough_grey alignment baseline "
                          "height_kind height_value zero")


def header_of(sheet):
    return Header(*HEADER_FORM.unpack_from(sheet, 0))


def font_record(number):
    """The offset of a font's record."""
    return HEADER_SIZE + FONT_SIZE * number


def item_record(fonts, number):
    """The offset of an item's record."""
    return HEADER_SIZE + FONT_SIZE * fonts + ITEM_SIZE * number


def font_of(sheet, number):
    return Font(*FONT_FORM.unpack_from(sheet, font_record(number)))


def item_of(sheet, number):
    return Item(*ITEM_FORM.unpack_from(sheet, item_record(header_of(sheet).fonts, number)))


def spelled(characters):
    """The entries of a mapping: where each starts, and the first and last character of the run that it lists.

    A run with last < first lists nothing; the surrogates are not characters.
    """
    at = 0
    while at < len(characters):
        if characters[at] != 0:
            yield at, characters[at], characters[at]
            at += 1
        elif at + 2 < len(characters):
            yield at, characters[at + 1], characters[at + 2]
            at += 3
        else:
            return


@lru_cache(maxsize=8)
def listed_runs(mapping):
    """The first and last character of each run that a mapping lists."""
    return [(first, last) for _, first, last in spelled([ord(c) for c in mapping.decode("utf-8")])]


def unlisted(text, mapping):
    """The characters of a text's lines, without the 0D that is dropped at a line's end, that a mapping does not list."""
    drawn = "".join(line.removesuffix("\r") for line in text.decode("utf-8").split("\n"))
    missing = {c for c in set(drawn) if not any(first <= ord(c) <= last for first, last in listed_runs(mapping))}
    return [c for c in drawn if c in missing]


def run_length(first, last):
    """How many characters stand from first to last."""
    surrogates = max(0, min(last, 0xDFFF) - max(first, 0xD800) + 1)
    return max(0, last - first + 1 - surrogates)


def code_point(character):
    return f"U+{character:04X}"
