"""A model of the BDF reader: which font a file of Adobe's Glyph Bitmap Distribution Format 2.1 gives, or which line is refused and with what.

    python3 tests/bdf_model.py < FONT.bdf > FONT

As a program it writes what read_bdf writes: the font, which is its record, atlas and mapping, or 'refused N' and a feed.
"""
import struct
import sys

MOST_SIDE, MOST_OFFSET, MOST_BASELINE, MOST_MAPPING = 64, 1_000_000_000, 255, 65_535
COLUMNS = 16
DIGITS, HEXADECIMAL = frozenset(b"0123456789"), frozenset(b"0123456789ABCDEFabcdef")


class Refused(Exception):
    """The number of a refusal."""


def need(condition, number=19):
    if not condition:
        raise Refused(number)


def read(file):
    """('font', its bytes), or ('refused', the number, the number of the line at fault); of a missing line it is the file's last line."""
    lines = Lines(file)
    try:
        return "font", font_of(*read_font(lines))
    except Refused as refused:
        return "refused", refused.args[0], min(lines.at, len(lines.lines))


class Lines:
    """The lines of a file. They end at a feed or at the file's end, and a return before that is dropped."""

    def __init__(self, file):
        self.lines = [line[:-1] if line.endswith(b"\r") else line for line in file.split(b"\n")]
        self.at = 0

    def plain(self):
        """The next line as it stands."""
        self.at += 1
        need(self.at <= len(self.lines))
        return self.lines[self.at - 1]

    def words(self):
        """The words of the next line that counts: no blank one, and no COMMENT."""
        while True:
            words = [word for word in self.plain().replace(b"\t", b" ").split(b" ") if word]
            if words and words[0] != b"COMMENT":
                return words

    def at_end(self):
        """Whether only lines that do not count are left; if not, the next that counts is taken."""
        try:
            self.words()
            return False
        except Refused:
            return True


def number(word):
    """The value of decimal digits, perhaps after one '-'."""
    digits = word[1:] if word.startswith(b"-") else word
    need(digits and set(digits) <= DIGITS)
    value = int_of(digits)
    return -value if word.startswith(b"-") else value


def int_of(digits):
    """The value of any number of digits; Python's own conversion stops at some thousands."""
    if len(digits) <= 4000:
        return int(digits)
    half = len(digits) // 2
    return int_of(digits[:half]) * 10 ** (len(digits) - half) + int_of(digits[half:])


def numbers(words, keyword, count):
    need(words[0] == keyword and len(words) == count + 1)
    return [number(word) for word in words[1:]]


def counted(words, keyword):
    count, = numbers(words, keyword, 1)
    need(count >= 0)
    return count


def named(words, keyword):
    need(words[0] == keyword and len(words) >= 2)


# ---- the file

def read_font(lines):
    """The box (width, height, offsets) and the glyphs: of each its encoding, its box, and its rows as numbers, the leftmost pixel the highest bit."""
    need(lines.words() == [b"STARTFONT", b"2.1"])
    named(lines.words(), b"FONT")
    numbers(lines.words(), b"SIZE", 3)
    box = numbers(lines.words(), b"FONTBOUNDINGBOX", 4)
    width, height, x, y = box
    need(0 <= width <= MOST_SIDE and 0 <= height <= MOST_SIDE and max(abs(x), abs(y)) <= MOST_OFFSET and baseline(box) <= MOST_BASELINE, 20)
    words = lines.words()
    if words[0] == b"STARTPROPERTIES":
        left = counted(words, b"STARTPROPERTIES")
        while left > 0:
            lines.words()
            left -= 1
        need(lines.words() == [b"ENDPROPERTIES"])
        words = lines.words()
    left = counted(words, b"CHARS")
    glyphs, mapping = [], 0
    while left > 0:
        glyphs.append(read_glyph(lines, box, glyphs[-1][0] if glyphs else -1, mapping))
        mapping += len(entry(glyphs[-1][0]))
        left -= 1
    need(lines.words() == [b"ENDFONT"])
    need(lines.at_end())
    return box, glyphs


def read_glyph(lines, box, previous, mapping):
    """A glyph, where the previous one has this encoding, or -1, and the mapping so far these bytes."""
    named(lines.words(), b"STARTCHAR")
    encoding = read_encoding(lines.words())
    need(0 <= encoding <= 0x10FFFF and not 0xD800 <= encoding <= 0xDFFF and encoding > previous, 21)
    need(mapping + len(entry(encoding)) <= MOST_MAPPING, 20)
    numbers(lines.words(), b"SWIDTH", 2)
    numbers(lines.words(), b"DWIDTH", 2)
    bounds = numbers(lines.words(), b"BBX", 4)
    width, height, x, y = bounds
    need(width >= 0 and height >= 0 and max(abs(x), abs(y)) <= MOST_OFFSET, 20)
    need(box[2] <= x and x + width <= box[2] + box[0] and box[3] <= y and y + height <= box[3] + box[1], 20)
    words = lines.words()
    if words[0] == b"ATTRIBUTES":
        need(len(words) == 2 and len(words[1]) == 4 and set(words[1]) <= HEXADECIMAL)
        words = lines.words()
    need(words == [b"BITMAP"])
    rows = [read_row(lines.plain(), width) for _ in range(height)]
    need(lines.words() == [b"ENDCHAR"])
    return encoding, bounds, rows


def read_encoding(words):
    """One number, or -1 and a second one."""
    need(words[0] == b"ENCODING" and len(words) in (2, 3))
    values = [number(word) for word in words[1:]]
    need(len(values) == 1 or values[0] == -1)
    return values[0]


def read_row(line, width):
    """The pixels of a bitmap line: whole bytes in hexadecimal digits, of which the first bits count."""
    digits = 2 * ((width + 7) // 8)
    need(len(line) == digits and set(line) <= HEXADECIMAL)
    return int(line or b"0", 16) >> (4 * digits - width)


# ---- the font

def baseline(box):
    return max(0, box[1] + box[3] - 1)


def entry(encoding):
    """A character in the mapping: its UTF-8, and U+0000 as the range of itself."""
    return chr(encoding).encode("utf-8") if encoding != 0 else b"\0\0\0"


def atlas_of(box, glyphs):
    """Rows of 16 cells. A glyph stands in its cell by the difference of its offsets from the box's, from the left and from the foot."""
    cell_width, cell_height, left, foot = box
    rows = [0] * (-(-len(glyphs) // COLUMNS) * cell_height)
    for k, (_, (width, height, x, y), bitmap) in enumerate(glyphs):
        top = k // COLUMNS * cell_height + cell_height - (y - foot) - height
        column = k % COLUMNS * cell_width + (x - left)
        for row, pixels in enumerate(bitmap):
            rows[top + row] |= pixels << (COLUMNS * cell_width - column - width)
    return b"".join(row.to_bytes(2 * cell_width, "big") for row in rows)


def font_of(box, glyphs):
    """Record, atlas and mapping."""
    width, height = box[:2]
    atlas, mapping = atlas_of(box, glyphs), b"".join(entry(encoding) for encoding, _, _ in glyphs)
    strikethrough, underline = (max(0, height - 1) // 2, 1), (height + 1, 1)
    record = struct.pack("<IIIHHH8BH", 28, len(atlas), 28 + len(atlas), len(mapping), 0, COLUMNS * width, width, height, 0, baseline(box),
                         *strikethrough, *underline, 0)
    return record + atlas + mapping


def main():
    answer = read(sys.stdin.buffer.read())
    sys.stdout.buffer.write(answer[1] if answer[0] == "font" else f"refused {answer[1]}\n".encode("ascii"))


if __name__ == "__main__":
    main()
