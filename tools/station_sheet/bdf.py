"""Fonts in Adobe's Glyph Bitmap Distribution Format 2.1. The proved program read_bdf reads them; the tool itself finds which line of a refused file is at
fault, and says why. The numbers, and the order of the tests, are those of docs/SHEET.md."""
import re
from collections import namedtuple

from . import Problem
from .layout import FONT_FORM, FONT_SIZE, MOST_CELL, Font, code_point
from .programs import is_there, run
from .show import quoted

MOST_FILE = 4_194_304
MOST_OFFSET = 1_000_000_000
MOST_BASELINE = 255
MOST_MAPPING = 65_535
MOST_SHOWN = 40
NUMBER = re.compile(rb"(-?)0*([0-9]+)")
HEXADECIMAL = re.compile(rb"[0-9A-Fa-f]*")
# No limit is near it: a longer number counts as this one.
LARGE = 10**20

# The line is counted from 1; of a line that is missing it is the file's last.
Refusal = namedtuple("Refusal", "number line cause")


# ---- what read_bdf made of a file

def read_bdf(data, name):
    """The font's record, with the offsets that it has by itself, its atlas and its mapping; messages give the file this name."""
    if not is_there("read_bdf"):
        raise Problem(f"{name}: target/bin/read_bdf is missing: make it with 'tools/build.sh read_bdf'", 2)
    if len(data) > MOST_FILE:
        raise Problem(f"{name}: it has {len(data):,} bytes, and read_bdf takes {MOST_FILE:,}")
    said = run("read_bdf", data)
    answer, refusal = re.fullmatch(rb"refused ([0-9]{1,3})\n", said), explain_bdf(data)
    if (int(answer[1]) if answer else None) != (refusal.number if refusal else None):
        program = f"refuses it with {int(answer[1])}" if answer else "reads it"
        tool = f"the tool finds {refusal.number} on line {refusal.line}: {refusal.cause}" if refusal else "the tool finds no fault in it"
        raise Problem(f"{name}: target/bin/read_bdf {program}, and {tool}; one of the two is wrong, and the program counts", 2)
    if refusal is not None:
        raise Problem(f"{name}: line {refusal.line}: refused with {refusal.number}: {refusal.cause}")
    return parts_of(said)


def parts_of(said):
    """The record, the atlas and the mapping of what the program wrote."""
    record = Font(*FONT_FORM.unpack_from(said)) if len(said) >= FONT_SIZE else None
    if record is None or (record.atlas_at, record.mapping_at, len(said)) != (
            FONT_SIZE, FONT_SIZE + record.atlas_length, FONT_SIZE + record.atlas_length + record.mapping_length):
        raise Problem("target/bin/read_bdf wrote something else than a record, its atlas and its mapping", 2)
    return record, said[record.atlas_at:record.mapping_at], said[record.mapping_at:]


# ---- which line is at fault

def explain_bdf(data):
    """The first refusal of a file, or None for a file that is read."""
    lines = Lines(data)
    try:
        read_file(lines)
    except Fault as fault:
        return Refusal(fault.number, min(lines.at, len(lines.lines)), fault.cause)
    return None


class Fault(Exception):
    """What is wrong with the line that was read last."""

    def __init__(self, cause, number=19):
        super().__init__(cause)
        self.number, self.cause = number, cause


class Lines:
    """The lines of a file, and how many of them were read."""

    def __init__(self, data):
        self.lines, self.at = data.split(b"\n"), 0

    def row(self, wanted):
        """The next line, whatever it is."""
        if self.at == len(self.lines):
            self.at += 1
            raise Fault(f"the file ends here, and {wanted} is missing")
        self.at += 1
        return self.lines[self.at - 1].removesuffix(b"\r")

    def any_words(self, wanted):
        """The words of the next line that counts: blank lines and comments do not."""
        words = []
        while not words or words[0] == b"COMMENT":
            words = re.findall(rb"[^ \t]+", self.row(wanted))
        return words

    def words(self, keyword, among=None):
        """The values of the next line that counts, which has this keyword, or one of these."""
        among = among or (keyword,)
        wanted = " or ".join(among)
        words = self.any_words(wanted)
        if words[0] not in [word.encode("ascii") for word in among]:
            raise Fault(f"{wanted} is expected here, and not {shown(words[0])}")
        return words[0].decode("ascii"), words[1:]

    def alone(self, keyword):
        _, values = self.words(keyword)
        if values:
            raise Fault(f"{keyword} stands alone on its line, and {shown(values[0])} follows it")

    def name(self, keyword):
        if not self.words(keyword)[1]:
            raise Fault(f"{keyword} has no name behind it")

    def numbers(self, keyword, count):
        return numbers_of(keyword, self.words(keyword)[1], count)

    def rest(self):
        """Whether a line that counts is left; it is read then."""
        try:
            return self.any_words("")
        except Fault:
            return None


def shown(word):
    """A word of the file in quotes; of a long one, its beginning."""
    return quoted(word) if len(word) <= MOST_SHOWN else f"{quoted(word[:MOST_SHOWN])}.."


def plural(count, word):
    return f"{count} {word}{'' if count == 1 else 's'}"


def numbers_of(keyword, words, count):
    if len(words) != count:
        raise Fault(f"{keyword} takes {plural(count, 'number')}, and has {plural(len(words), 'word')}")
    return [number_of(word) for word in words]


def number_of(word):
    digits = NUMBER.fullmatch(word)
    if digits is None:
        raise Fault(f"{shown(word)} is no number: decimal digits, perhaps behind one '-'")
    value = int(digits[2]) if len(digits[2]) <= 20 else LARGE
    return -value if digits[1] else value


def count_of(keyword, words):
    count, = numbers_of(keyword, words, 1)
    if count < 0:
        raise Fault(f"{keyword} has a negative count, {shown(words[0])}")
    return count


def read_file(lines):
    version = lines.words("STARTFONT")[1]
    if version != [b"2.1"]:
        raise Fault(f"STARTFONT has {shown(b' '.join(version))} behind it, and 2.1 is the version that is read")
    lines.name("FONT")
    lines.numbers("SIZE", 3)
    cell = lines.numbers("FONTBOUNDINGBOX", 4)
    test_cell(*cell)
    keyword, values = lines.words("CHARS", ("STARTPROPERTIES", "CHARS"))
    if keyword == "STARTPROPERTIES":
        read_properties(lines, count_of(keyword, values))
        keyword, values = lines.words("CHARS")
    glyphs, previous, mapping = count_of(keyword, values), None, 0
    for number in range(glyphs):
        previous, mapping = read_glyph(lines, f"glyph {number + 1} of {glyphs}", cell, previous, mapping)
    lines.alone("ENDFONT")
    if rest := lines.rest():
        raise Fault(f"{shown(rest[0])} stands behind ENDFONT, where only blank lines and comments may")


def read_properties(lines, count):
    for _ in range(count):
        lines.any_words(f"one of {plural(count, 'property line')}")
    lines.alone("ENDPROPERTIES")


def test_cell(width, height, x, y):
    for name, side in (("width", width), ("height", height)):
        if side < 0:
            raise Fault(f"the cell's {name} is negative", 20)
        if side > MOST_CELL:
            raise Fault(f"the cell's {name} is {clipped(side)}, above {MOST_CELL}", 20)
    test_offsets(x, y)
    if height + y - 1 > MOST_BASELINE:
        raise Fault(f"the baseline, which is height {height} and offset {y} less 1, is {height + y - 1}, above {MOST_BASELINE}", 20)


def test_offsets(x, y):
    for offset in (x, y):
        if abs(offset) > MOST_OFFSET:
            raise Fault(f"the offset {clipped(offset)} lies beyond {MOST_OFFSET}", 20)


def clipped(value):
    return value if abs(value) < LARGE else "of more than 20 digits"


def read_glyph(lines, name, cell, previous, mapping):
    """The glyph's encoding and the mapping's bytes with it, where the glyph before has this encoding, or there is none."""
    words = lines.any_words(f"STARTCHAR of {name}")
    if words[0] != b"STARTCHAR":
        raise Fault(f"STARTCHAR of {name} is expected here, and not {shown(words[0])}")
    if len(words) == 1:
        raise Fault("STARTCHAR has no name behind it")
    encoding = read_encoding(lines.words("ENCODING")[1], previous)
    mapping += len(chr(encoding).encode("utf-8")) if encoding else 3
    if mapping > MOST_MAPPING:
        raise Fault(f"the mapping has {mapping} bytes with this encoding, above {MOST_MAPPING}", 20)
    lines.numbers("SWIDTH", 2)
    lines.numbers("DWIDTH", 2)
    width, height, x, y = lines.numbers("BBX", 4)
    test_box(width, height, x, y, cell)
    keyword, values = lines.words("BITMAP", ("ATTRIBUTES", "BITMAP"))
    if keyword == "ATTRIBUTES":
        if len(values) != 1 or len(values[0]) != 4 or not HEXADECIMAL.fullmatch(values[0]):
            raise Fault("ATTRIBUTES takes four hexadecimal digits")
        keyword, values = lines.words("BITMAP")
    if values:
        raise Fault(f"BITMAP stands alone on its line, and {shown(values[0])} follows it")
    for number in range(height):
        test_row(lines.row(f"row {number + 1} of {height}"), width, f"row {number + 1} of {height}")
    lines.alone("ENDCHAR")
    return encoding, mapping


def read_encoding(words, previous):
    if len(words) not in (1, 2):
        raise Fault(f"ENCODING takes one number, or -1 and a second one, and has {plural(len(words), 'word')}")
    values = [number_of(word) for word in words]
    if len(values) == 2 and values[0] != -1:
        raise Fault(f"ENCODING has a second number behind {shown(words[0])}; it may have one behind -1 only")
    value = values[0]
    if not 0 <= value <= 0x10FFFF or 0xD800 <= value <= 0xDFFF:
        raise Fault(f"the encoding {clipped(value)} is no character", 21)
    if previous is not None and value <= previous:
        raise Fault(f"the encoding {value} ({code_point(value)}) does not rise: the glyph before has {previous}", 21)
    return value


def test_box(width, height, x, y, cell):
    """In the cell, a side of 0 as well."""
    for name, side in (("width", width), ("height", height)):
        if side < 0:
            raise Fault(f"the box's {name} is negative", 20)
    test_offsets(x, y)
    cell_width, cell_height, cell_x, cell_y = cell
    passed = (("left", cell_x - x), ("right", x + width - cell_x - cell_width), ("foot", cell_y - y), ("top", y + height - cell_y - cell_height))
    over = [f"its {edge}" + (f" by {pixels}" if pixels < MOST_OFFSET else "") for edge, pixels in passed if pixels > 0]
    if over:
        raise Fault(f"the glyph's box passes its cell, which is FONTBOUNDINGBOX: {', '.join(over)}", 20)


def test_row(line, width, name):
    digits = 2 * ((width + 7) // 8)
    if len(line) != digits or not HEXADECIMAL.fullmatch(line):
        raise Fault(f"{name} is {shown(line)}, and a box {width} wide has rows of exactly {plural(digits, 'hexadecimal digit')}")
