"""Fonts drawn as bitmap text; tools/README.md is a guide to it.

A text has lines of a word and its values, then the glyphs:

    cell 6 10              the cell's width and height
    spacing 0              columns between two characters
    baseline 7             the baseline, in rows below the cell's top
    strikethrough 5 1      offset below the top edge, and height
    underline 9 1          the same
    replacement U+003F     the glyph for a character that the font has not; 'none' for nothing
    glyph U+0041           then one line for each row of the cell: '.' is off, '#' is on

What follows the value of 'glyph' or 'replacement' on its line is for the reader. An empty line and a comment, which is a line that starts
with '#', are passed over, but not among the rows of a glyph. After the first glyph a line of '.' and '#' alone is no comment: it is a row too
many. A glyph of a cell that is 0 wide or 0 high has no rows.
"""
import re

from . import Problem
from .layout import MOST_ATLAS_WIDTH, MOST_CELL, code_point

# How many values follow each word, and the largest.
WORDS = {"cell": (2, MOST_CELL), "spacing": (1, MOST_CELL), "baseline": (1, 255), "strikethrough": (2, 255), "underline": (2, 255)}
CHARACTER = re.compile(r"U\+([0-9A-Fa-f]{1,6})")
NUMBER = re.compile(r"[0-9]{1,6}")


class BitmapFont:
    """The numbers of a font, and its glyphs: rows of '.' and '#' by character, in the text's order."""

    def __init__(self, name):
        self.name = name
        self.words = {"spacing": (0,), "baseline": (0,), "strikethrough": (0, 0), "underline": (0, 0)}
        self.replacement = None
        self.glyphs = {}
        self.warnings = []

    def replacement_index(self):
        """The index of the replacement, or the first index without a glyph."""
        listed = list(self.glyphs)
        return listed.index(self.replacement) if self.replacement is not None else len(listed)

    def mapping(self):
        """The mapping's bytes: a run of characters as a range where that is shorter."""
        data = []
        for first, last in runs(list(self.glyphs)):
            single = b"".join(chr(c).encode("utf-8") for c in range(first, last + 1))
            ranged = b"\0" + chr(first).encode("utf-8") + chr(last).encode("utf-8")
            data.append(ranged if first == 0 or len(ranged) < len(single) else single)
        return b"".join(data)

    def atlas(self, columns):
        """The atlas's width and bytes, with so many cells in a row."""
        width, height = self.words["cell"]
        glyphs = list(self.glyphs.values())
        data = []
        for start in range(0, len(glyphs) if width > 0 else 0, columns):
            cells = glyphs[start:start + columns]
            cells += [["." * width] * height] * (columns - len(cells))
            for row in range(height):
                data.append(bits("".join(cell[row] for cell in cells)))
        return columns * width, b"".join(data)

    def most_columns(self):
        return max(1, min(16, len(self.glyphs), MOST_ATLAS_WIDTH // max(1, self.words["cell"][0])))

    def text(self):
        """The font as bitmap text."""
        lines = [" ".join(map(str, (word, *self.words[word]))) for word in WORDS]
        lines.append("replacement " + ("none" if self.replacement is None else code_point(self.replacement)))
        for value, rows in self.glyphs.items():
            shown = f" {chr(value)}" if chr(value).isprintable() and not chr(value).isspace() else ""
            lines += ["", f"glyph {code_point(value)}{shown}", *rows]
        return "\n".join(lines) + "\n"


def runs(characters):
    """The first and last of each run of characters that follow one another."""
    start = 0
    for k in range(1, len(characters) + 1):
        if k == len(characters) or characters[k] != characters[k - 1] + 1:
            yield characters[start], characters[k - 1]
            start = k


def bits(row):
    """A row of '.' and '#' as bytes, the leftmost pixel in the highest bit."""
    padded = row + "." * (-len(row) % 8)
    return bytes(int(padded[k:k + 8].replace(".", "0").replace("#", "1"), 2) for k in range(0, len(padded), 8))


def pixels(data):
    """Bytes as a row of '.' and '#'."""
    return "".join(f"{byte:08b}" for byte in data).replace("0", ".").replace("1", "#")


def parse_font(text, name):
    """The font of a bitmap text; messages give it this name."""
    font = BitmapFont(name)
    lines = text.split("\n")
    at, seen = 0, {}
    while at < len(lines):
        words = lines[at].split()
        at += 1
        place = f"{name}: line {at}"
        if not words:
            continue
        if font.glyphs and not set(lines[at - 1].strip()) - set(".#"):
            raise Problem(f"{place}: a row outside a glyph: the cell has {font.words['cell'][1]} rows (a comment has more after its '#')")
        if words[0].startswith("#"):
            continue
        if words[0] in seen:
            font.warnings.append(f"{place}: '{words[0]}' is there twice, first on line {seen[words[0]]}; this one counts")
        if words[0] == "glyph":
            at = read_glyph(font, lines, at, words, place)
            continue
        seen[words[0]] = at
        if words[0] == "cell" and font.glyphs:
            raise Problem(f"{place}: 'cell' stands once, before the first glyph")
        if words[0] == "replacement" and len(words) > 1:
            font.replacement = None if words[1] == "none" else character(words[1], place)
        elif words[0] == "replacement":
            raise Problem(f"{place}: 'replacement' takes a character as U+0041, or 'none'")
        elif words[0] in WORDS:
            font.words[words[0]] = numbers(words, place)
        else:
            raise Problem(f"{place}: '{words[0]}' is no word of a bitmap font; the words are {', '.join(WORDS)}, replacement, glyph")
    finish(font, name)
    return font


def read_glyph(font, lines, at, words, place):
    """Takes the rows of a glyph; gives the line after them."""
    if "cell" not in font.words:
        raise Problem(f"{place}: the cell's size must come before the first glyph")
    if len(words) < 2:
        raise Problem(f"{place}: a glyph needs its character, as U+0041")
    width, height = font.words["cell"]
    value = character(words[1], place)
    if value in font.glyphs:
        raise Problem(f"{place}: glyph {code_point(value)} is there twice")
    if width == 0 or height == 0:
        height = 0
    rows = lines[at:at + height]
    for k, row in enumerate(rows):
        where = f"{font.name}: line {at + k + 1}"
        if row == "" or row.startswith("glyph"):
            raise Problem(f"{where}: glyph {code_point(value)} has {k} rows, and the cell {height}")
        if set(row) - set(".#"):
            raise Problem(f"{where}: a row of glyph {code_point(value)} has something else than '.' and '#'")
        if len(row) != width:
            raise Problem(f"{where}: a row of glyph {code_point(value)} has {len(row)} columns, and the cell {width}")
    if len(rows) < height:
        raise Problem(f"{font.name}: glyph {code_point(value)} has {len(rows)} rows, and the cell {height}")
    font.glyphs[value] = rows
    return at + height


def numbers(words, place):
    count, most = WORDS[words[0]]
    if len(words) != count + 1 or not all(NUMBER.fullmatch(w) and int(w) <= most for w in words[1:]):
        raise Problem(f"{place}: '{words[0]}' takes {count} number{'s' if count > 1 else ''} from 0 to {most}")
    return tuple(int(w) for w in words[1:])


def character(word, place):
    """The character that U+ and hexadecimal digits name."""
    named = CHARACTER.fullmatch(word)
    value = int(named[1], 16) if named else -1
    if not 0 <= value <= 0x10FFFF or 0xD800 <= value <= 0xDFFF:
        raise Problem(f"{place}: '{word[:40]}' is no character; write it as U+0041")
    return value


def finish(font, name):
    if "cell" not in font.words:
        raise Problem(f"{name}: the cell's size is missing")
    if font.replacement is not None and font.replacement not in font.glyphs:
        raise Problem(f"{name}: the replacement {code_point(font.replacement)} has no glyph")
