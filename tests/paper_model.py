"""A model of the station sheet that follows docs/SHEET.md and nothing else: it shows that the paper is enough. It uses nothing of the crates, and is plain and slow.
Its reader of BDF fonts has nothing of the other one, tests/bdf_model.py, nor of that of the tools.

Each part has the title of the paper's section that it follows. The calls are the functions at the end: each takes the lent bytes and its numbers, changes sheet, frame
and output (bytearrays) as the paper says, and returns its reply as a tuple, the code first. An edit, or a list of them, with None for a frame is made on the
sheet alone.
"""
from collections import namedtuple
from functools import lru_cache

END, ILL_FORMED = "end", "ill-formed"


# ---- Numbers and bytes

def number(b, at, size):
    return sum(byte << 8 * k for k, byte in enumerate(b[at:at + size]))


def signed(b, at, size=2):
    n = number(b, at, size)
    return n if n < 256**size // 2 else n - 256**size


# ---- Geometry: a rectangle is (left, top, width, height); a frame is lent with its width

Canvas = namedtuple("Canvas", "greys width height")


def cut(area, width, height):
    """A rectangle cut to a frame; None if nothing is left."""
    left, top = max(area[0], 0), max(area[1], 0)
    w, h = min(area[0] + area[2], width) - left, min(area[1] + area[3], height) - top
    return (left, top, w, h) if w > 0 and h > 0 else None


def fill(canvas, area, grey):
    covered = cut(area, canvas.width, canvas.height)
    if covered:
        left, top, w, h = covered
        for row in range(top, top + h):
            canvas.greys[row * canvas.width + left:row * canvas.width + left + w] = bytes([grey]) * w


def join(areas):
    """The smallest rectangle that holds the nonempty ones; None if there are none."""
    areas = [a for a in areas if a and a[2] > 0 and a[3] > 0]
    if not areas:
        return None
    left, top = min(a[0] for a in areas), min(a[1] for a in areas)
    return left, top, max(a[0] + a[2] for a in areas) - left, max(a[1] + a[3] for a in areas) - top


# ---- Characters: the first table

def is_character(v):
    return v <= 0x10FFFF and not 0xD800 <= v <= 0xDFFF


def step(b, at):
    """END, ILL_FORMED, or a character and the offset behind it."""
    if at >= len(b):
        return END
    a = b[at]
    if a < 0x80:
        return a, at + 1
    if a < 0xC0 or a >= 0xF8:
        return ILL_FORMED
    length, v, least = (2, a % 32, 0x80) if a < 0xE0 else (3, a % 16, 0x800) if a < 0xF0 else (4, a % 8, 0x10000)
    rest = b[at + 1:at + length]
    if len(rest) < length - 1 or any(not 0x80 <= c <= 0xBF for c in rest):
        return ILL_FORMED
    for c in rest:
        v = v * 64 + c % 64
    return (v, at + length) if v >= least and is_character(v) else ILL_FORMED


@lru_cache(4096)
def characters(b):
    """The characters of well-formed bytes; None if they are ill-formed."""
    found, at = [], 0
    while (s := step(b, at)) != END:
        if s == ILL_FORMED:
            return None
        found.append(s[0])
        at = s[1]
    return found


# ---- Mapping

@lru_cache(4096)
def runs(mapping):
    """The list that a mapping spells, as runs without surrogates: the first position of each, its first and its last character."""
    data, found, at, position = characters(mapping), [], 0, 0
    while at < len(data):
        if data[at] != 0:
            pairs, at = [(data[at], data[at])], at + 1
        elif at + 2 < len(data):
            start, end = data[at + 1], data[at + 2]
            pairs, at = [(start, min(end, 0xD7FF)), (max(start, 0xE000), end)], at + 3
        else:
            break
        for start, end in pairs:
            if start <= end:
                found.append((position, start, end))
                position += end - start + 1
    return found, position


def index(font, ch):
    at = place(font, ch)
    return font.replacement if at is None else at


def place(font, ch):
    return next((at + ch - start for at, start, end in runs(font.mapping)[0] if start <= ch <= end), None)


# ---- Atlas

def draw_glyph(canvas, font, style, i, left, top):
    if font.cw == 0 or font.ch == 0 or font.atlas_width < font.cw:
        return
    row_bytes, per_row = (font.atlas_width + 7) // 8, font.atlas_width // font.cw
    column, row = i % per_row * font.cw, i // per_row * font.ch
    if row + font.ch > len(font.atlas) // row_bytes:
        return
    for v in range(max(0, -top), min(font.ch, canvas.height - top)):
        for u in range(max(0, -left), min(font.cw, canvas.width - left)):
            on = font.atlas[(row + v) * row_bytes + (column + u) // 8] >> 7 - (column + u) % 8 & 1
            grey = style.text if on else style.background
            if grey is not None:
                canvas.greys[(top + v) * canvas.width + left + u] = grey


# ---- One line

Style = namedtuple("Style", "text background underline underline_grey strikethrough strikethrough_grey")


def top_edge(font, baseline, y):
    return y - (0, max(font.ch - 1, 0), max(font.ch - 1, 0) // 2, font.baseline)[baseline]


def decorations(font, style):
    """Strikethrough, then underline, each if its colour resolves: its offset, height and grey."""
    for mode, own, (offset, height) in ((style.strikethrough, style.strikethrough_grey, font.strikethrough),
                                        (style.underline, style.underline_grey, font.underline)):
        grey = (None, style.text, own)[mode]
        if grey is not None:
            yield offset, height, grey


def draw_decorations(canvas, font, style, advance, x, top):
    for offset, height, grey in decorations(font, style):
        fill(canvas, (x, top + offset, advance, height), grey)


def advance_of(font, style, n):
    if style.text is None and style.background is None:
        return n * (font.cw + font.s)
    return n * font.cw + (n - 1) * font.s if n else 0


def draw_line(canvas, font, style, line, x, top):
    for k, ch in enumerate(line):
        left = x + k * (font.cw + font.s)
        if style.background is not None and k > 0:
            fill(canvas, (left - font.s, top, font.s, font.ch), style.background)
        draw_glyph(canvas, font, style, index(font, ch), left, top)
    draw_decorations(canvas, font, style, advance_of(font, style, len(line)), x, top)


def measured_width(font, n):
    return max(0, n * (font.cw + font.s) - font.s)


def measured_height(font, style):
    return sum(font.underline) if style.underline else font.ch


def draw_whitespace_of(canvas, item, width):
    top = top_edge(item.font, item.baseline, item.y)
    if item.style.background is not None:
        fill(canvas, (item.x, top, width, item.font.ch), item.style.background)
    draw_decorations(canvas, item.font, item.style, width, item.x, top)
    return item.x + width, item.y


# ---- Text

def lines_of(item):
    """Each line: its characters without the dropped 0D, its start, its y and its top edge."""
    height = item.height_value if item.height_kind == 0 else item.font.ch * item.height_value // 100
    for j, line in enumerate(item.text.split(b"\n")):
        w, y = measured_width(item.font, len(characters(line))), item.y + j * height
        start = item.x - (0, int((w - 1) / 2), w - 1)[item.alignment]
        yield characters(line[:-1] if line[-1:] == b"\r" else line), start, y, top_edge(item.font, item.baseline, y)


def draw_text(canvas, item):
    for line, x, y, top in lines_of(item):
        draw_line(canvas, item.font, item.style, line, x, top)
    return x + advance_of(item.font, item.style, len(line)), y


def bounding_box_of(item):
    height = measured_height(item.font, item.style)
    return join([(x, top, measured_width(item.font, len(line)), height) for line, x, y, top in lines_of(item)]) or (item.x, item.y, 0, 0)


# ---- Replaced characters

def is_listed(font, ch):
    return place(font, ch) is not None


def replaced(item):
    return sum(not is_listed(item.font, ch) for line, *_ in lines_of(item) for ch in line)


# ---- Sheet

Font = namedtuple("Font", "atlas mapping replacement atlas_width cw ch s baseline strikethrough underline")
Item = namedtuple("Item", "x y text font style alignment baseline height_kind height_value")


def record(b, item):
    return 24 + 28 * b[7] + 28 * item


@lru_cache(4096)
def font_at(b, number_):
    o = 24 + 28 * number_
    atlas, mapping = number(b, o, 4), number(b, o + 8, 4)
    return Font(b[atlas:atlas + number(b, o + 4, 4)], b[mapping:mapping + number(b, o + 12, 2)], number(b, o + 14, 2), number(b, o + 16, 2),
                b[o + 18], b[o + 19], b[o + 20], b[o + 21], (b[o + 22], b[o + 23]), (b[o + 24], b[o + 25]))


def item_at(b, item):
    o, b = record(b, item), bytes(b)
    slot = number(b, o + 4, 4)
    style = Style(b[o + 14] if b[o + 13] else None, b[o + 16] if b[o + 15] else None, *b[o + 17:o + 21])
    return Item(signed(b, o), signed(b, o + 2), b[slot:slot + number(b, o + 10, 2)], font_at(b, b[o + 12]), style, b[o + 21], b[o + 22],
                b[o + 23], number(b, o + 24, 2))


def laid_out(b):
    fonts, items = b[7], number(b, 8, 2)
    p = 24 + 28 * fonts + 28 * items
    if number(b, 12, 4) != 24 or number(b, 16, 4) != 24 + 28 * fonts or p > len(b):
        return False
    for o in range(24, 24 + 28 * fonts, 28):
        if number(b, o, 4) != p or number(b, o + 8, 4) != p + number(b, o + 4, 4):
            return False
        p += number(b, o + 4, 4) + number(b, o + 12, 2)
    for o in range(24 + 28 * fonts, 24 + 28 * fonts + 28 * items, 28):
        if number(b, o + 4, 4) != p:
            return False
        p += number(b, o + 8, 2)
    return p == len(b)


# ---- Drawing and edits

def canvas_of(b, frame):
    return Canvas(frame, number(b, 2, 2), number(b, 4, 2))


def page(b):
    """The fresh drawing."""
    frame = bytearray([b[6]]) * (number(b, 2, 2) * number(b, 4, 2))
    for n in range(number(b, 8, 2)):
        draw_text(canvas_of(b, frame), item_at(b, n))
    return frame


def ink_box(item):
    font, style = item.font, item.style
    parts = [(offset, height) for offset, height, _ in decorations(font, style)]
    if style.text is not None or style.background is not None:
        parts.append((0, font.ch))
    return join([(x, top + offset, advance_of(font, style, len(line)), height) for line, x, y, top in lines_of(item) for offset, height in parts])


def edited(b, frame, n, changes):
    """Makes an accepted edit: the bytes of each change, at its offset, then the frame if there is one. The reply."""
    width, height = number(b, 2, 2), number(b, 4, 2)
    before = ink_box(item_at(b, n))
    for at, new in changes:
        b[at:at + len(new)] = new
    both = join([before, ink_box(item_at(b, n))])
    left, top, w, h = both and cut(both, width, height) or (0, 0, 0, 0)
    if frame is not None:
        fresh = page(b)
        for at in range(top * width + left, (top + h) * width + left, width):
            frame[at:at + w] = fresh[at:at + w]
    return 0, left, top, w, h


# ---- A list of edits

def entries_of(edits):
    """Kind, item number and data of each entry; None if the entries do not fill the list exactly, have an unknown kind or a place not 8 bytes long."""
    found, at = [], 0
    while at < len(edits):
        end = at + 4 + number(edits, at + 2, 2)
        if at + 4 > len(edits) or end > len(edits):
            return None
        kind, item, data = edits[at], edits[at + 1], edits[at + 4:end]
        if kind > 2 or kind == 1 and len(data) != 8:
            return None
        found.append((kind, item, data))
        at = end
    return found


def entry_made(b, frame, kind, item, data):
    """The edit that an entry is, made singly."""
    if kind == 1:
        return set_place(b, frame, item, signed(data, 0, 4), signed(data, 4, 4))
    return (set_style if kind else set_text)(b, frame, item, data)


# ---- Page and host

def page_file(b, frame):
    return b"P5\n%d %d\n255\n" % (number(b, 2, 2), number(b, 4, 2)) + frame


# ---- Fonts from BDF

class Refused(Exception):
    """The number of a refusal."""


def allow(good, code=19):
    if not good:
        raise Refused(code)


def file_lines(file):
    return iter([line[:-1] if line[-1:] == b"\r" else line for line in file.split(b"\n")])


def counting(lines):
    """The words of the next line that counts."""
    for line in lines:
        words = line.replace(b"\t", b" ").split(b" ")
        words = [word for word in words if word]
        if words and words[0] != b"COMMENT":
            return words
    raise Refused(19)


def is_over(lines):
    """Whether no line that counts is left."""
    try:
        return not counting(lines)
    except Refused:
        return True


def value_of(word):
    digits, value = word[1:] if word[:1] == b"-" else word, 0
    allow(digits and all(0x30 <= byte <= 0x39 for byte in digits))
    for byte in digits:
        value = 10 * value + byte - 0x30
    return -value if word[:1] == b"-" else value


def values_of(words, keyword, count):
    allow(words[0] == keyword and len(words) == 1 + count)
    return [value_of(word) for word in words[1:]]


def count_in(words, keyword):
    count = values_of(words, keyword, 1)[0]
    allow(count >= 0)
    return count


def are_hexadecimal(digits):
    return all(0x30 <= byte <= 0x39 or 0x41 <= byte <= 0x46 or 0x61 <= byte <= 0x66 for byte in digits)


def near(*offsets):
    return all(-1_000_000_000 <= offset <= 1_000_000_000 for offset in offsets)


def sequence(v):
    """The bytes whose step gives the character v."""
    if v < 0x80:
        return bytes([v])
    if v < 0x800:
        return bytes([0xC0 + v // 64, 0x80 + v % 64])
    if v < 0x10000:
        return bytes([0xE0 + v // 4_096, 0x80 + v // 64 % 64, 0x80 + v % 64])
    return bytes([0xF0 + v // 262_144, 0x80 + v // 4_096 % 64, 0x80 + v // 64 % 64, 0x80 + v % 64])


def bdf_cell(lines):
    """The lines up to FONTBOUNDINGBOX; the cell."""
    allow(counting(lines) == [b"STARTFONT", b"2.1"])
    name = counting(lines)
    allow(name[0] == b"FONT" and len(name) > 1)
    values_of(counting(lines), b"SIZE", 3)
    w, h, x, y = values_of(counting(lines), b"FONTBOUNDINGBOX", 4)
    allow(0 <= w <= 64 and 0 <= h <= 64 and near(x, y) and h + y - 1 <= 255, 20)
    return w, h, x, y


def bdf_glyph(lines, cell, last, mapping):
    """A glyph after one of the encoding `last`: its encoding, and the pixels of its cell that are on; the mapping grows."""
    name = counting(lines)
    allow(name[0] == b"STARTCHAR" and len(name) > 1)
    words = counting(lines)
    encoding, *second = values_of(words, b"ENCODING", 2 if len(words) == 3 else 1)
    allow(not second or encoding == -1)
    allow(encoding >= 0 and is_character(encoding) and encoding > last, 21)
    mapping += sequence(encoding) if encoding else bytes(3)
    allow(len(mapping) <= 65_535, 20)
    values_of(counting(lines), b"SWIDTH", 2)
    values_of(counting(lines), b"DWIDTH", 2)
    w, h, x, y = values_of(counting(lines), b"BBX", 4)
    left, foot = cell[2:]
    allow(w >= 0 and h >= 0 and near(x, y) and left <= x and x + w <= left + cell[0] and foot <= y and y + h <= foot + cell[1], 20)
    words = counting(lines)
    if words[0] == b"ATTRIBUTES":
        allow(len(words) == 2 and len(words[1]) == 4 and are_hexadecimal(words[1]))
        words = counting(lines)
    allow(words == [b"BITMAP"])
    on = []
    for v in range(h):
        row = next(lines, None)
        allow(row is not None and len(row) == 2 * ((w + 7) // 8) and are_hexadecimal(row))
        on += [(x - left + u, foot + cell[1] - (y + h) + v) for u in range(w) if int(row[u // 4:u // 4 + 1], 16) >> 3 - u % 4 & 1]
    allow(counting(lines) == [b"ENDCHAR"])
    return encoding, on


def bdf_font(file):
    """Record, atlas and mapping."""
    lines = file_lines(file)
    cell = bdf_cell(lines)
    words = counting(lines)
    if words[0] == b"STARTPROPERTIES":
        left = count_in(words, b"STARTPROPERTIES")
        while left:
            left -= bool(counting(lines))
        allow(counting(lines) == [b"ENDPROPERTIES"])
        words = counting(lines)
    left, last, glyphs, mapping = count_in(words, b"CHARS"), -1, [], bytearray()
    while left:
        last, on = bdf_glyph(lines, cell, last, mapping)
        glyphs.append(on)
        left -= 1
    allow(counting(lines) == [b"ENDFONT"])
    allow(is_over(lines))
    cw, ch, _, foot = cell
    atlas = bytearray((len(glyphs) + 15) // 16 * ch * 2 * cw)
    for k, on in enumerate(glyphs):
        for u, v in on:
            column, row = k % 16 * cw + u, k // 16 * ch + v
            atlas[row * 2 * cw + column // 8] |= 1 << 7 - column % 8
    numbers = ((28, 4), (len(atlas), 4), (28 + len(atlas), 4), (len(mapping), 2), (0, 2), (16 * cw, 2), (cw, 1), (ch, 1), (0, 1),
               (max(ch + foot - 1, 0), 1), (max(ch - 1, 0) // 2, 1), (1, 1), (ch + 1, 1), (1, 1), (0, 2))
    return b"".join(n.to_bytes(size, "little") for n, size in numbers) + bytes(atlas) + bytes(mapping)


# ---- Replies and refusals

@lru_cache(4096)
def checked(b):
    if not 24 <= len(b) <= 65_536 or number(b, 20, 4) != len(b) or number(b, 10, 2) != 0:
        return 1
    if number(b, 0, 2) != 1:
        return 2
    width, height = number(b, 2, 2), number(b, 4, 2)
    if not 1 <= width <= 512 or not 1 <= height <= 512 or width * height > 65_536:
        return 3
    if b[7] > 4 or number(b, 8, 2) > 64:
        return 4
    if not laid_out(b):
        return 5
    return next((code for k in range(b[7]) if (code := font_refusal(b, k))), 0) or \
        next((code for k in range(number(b, 8, 2)) if (code := item_refusal(b, record(b, k)))), 0)


def font_refusal(b, k):
    font = font_at(b, k)
    if max(font.cw, font.ch, font.s) > 64 or font.atlas_width > 1_024 or number(b, 24 + 28 * k + 26, 2) != 0:
        return 6
    if characters(font.mapping) is None:
        return 7
    return 8 if runs(font.mapping)[1] > 65_536 else 0


def item_refusal(b, o):
    slot, size, length = number(b, o + 4, 4), number(b, o + 8, 2), number(b, o + 10, 2)
    if size > 256 or length > size or b[o + 12] >= b[7] or not good_style(b[o + 13:o + 21]) or b[o + 21] > 2 or b[o + 22] > 3:
        return 9
    if b[o + 23] > 1 or number(b, o + 24, 2) > 1_000 or number(b, o + 26, 2) != 0 or any(b[slot + length:slot + size]):
        return 9
    return 10 if characters(b[slot:slot + length]) is None else 0


def good_style(style):
    return len(style) == 8 and style[0] <= 1 and style[2] <= 1 and style[4] <= 2 and style[6] <= 2


def code_of(b, frame=None, font=None, item=None):
    """The code before a call's last tests: the check, 11 of a frame that is lent, 12 of a font or an item that is named."""
    code = checked(bytes(b))
    if code:
        return code
    if frame is not None and len(frame) != number(b, 2, 2) * number(b, 4, 2):
        return 11
    return 12 if font is not None and font >= b[7] or item is not None and item >= number(b, 8, 2) else 0


def check(b):
    return (code_of(b),)


def index_call(b, font, character):
    code = code_of(b, font=font)
    if code:
        return code, 0, 0
    font = font_at(bytes(b), font)
    return 0, index(font, character), int(is_listed(font, character))


def contains(b, font, character):
    code = code_of(b, font=font)
    return (code, 0) if code else (0, int(is_listed(font_at(bytes(b), font), character)))


def bounding_box(b, n):
    code = code_of(b, item=n)
    return (code, 0, 0, 0, 0) if code else (0, *bounding_box_of(item_at(b, n)))


def draw_item(b, frame, n):
    code = code_of(b, frame, item=n)
    return (code, 0, 0, 0) if code else (0, *draw_text(canvas_of(b, frame), item_at(b, n)), replaced(item_at(b, n)))


def draw_whitespace(b, frame, n, width):
    code = code_of(b, frame, item=n) or (18 if width > 65_535 else 0)
    return (code, 0, 0) if code else (0, *draw_whitespace_of(canvas_of(b, frame), item_at(b, n), width))


def draw(b, frame):
    code = code_of(b, frame)
    if not code:
        frame[:] = page(b)
    return (code,)


def set_text(b, frame, n, text):
    code = code_of(b, frame, item=n) or (13 if len(text) > number(b, record(b, n) + 8, 2) else 14 if characters(text) is None else 0)
    if code:
        return code, 0, 0, 0, 0
    o = record(b, n)
    slot, size = number(b, o + 4, 4), number(b, o + 8, 2)
    return edited(b, frame, n, [(o + 10, len(text).to_bytes(2, "little")), (slot, text + bytes(size - len(text)))])


def set_place(b, frame, n, x, y):
    code = code_of(b, frame, item=n) or (0 if all(-32_768 <= z <= 32_767 for z in (x, y)) else 15)
    place_bytes = b"".join((z % 65_536).to_bytes(2, "little") for z in (x, y))
    return (code, 0, 0, 0, 0) if code else edited(b, frame, n, [(record(b, n), place_bytes)])


def set_style(b, frame, n, style):
    code = code_of(b, frame, item=n) or (0 if good_style(style) else 16)
    return (code, 0, 0, 0, 0) if code else edited(b, frame, n, [(record(b, n) + 13, style)])


def edit_list(b, frame, edits):
    entries = entries_of(bytes(edits))
    code = code_of(b, frame) or (22 if entries is None else 0)
    if code:
        return code, 0, 0, 0, 0, 0
    made = []
    for entry in entries:
        code, *area = entry_made(b, frame, *entry)
        if code:
            break
        made.append(area)
    return code, len(made), *(join(made) or (0, 0, 0, 0))


def write_page(b, frame, output):
    code = code_of(b, frame) or (17 if len(page_file(b, frame)) > len(output) else 0)
    if code:
        return code, 0
    file = page_file(b, frame)
    output[:len(file)] = file
    return 0, len(file)


def read_bdf(file, output):
    try:
        font = bdf_font(bytes(file))
    except Refused as refused:
        return refused.args[0], 0
    if len(font) > len(output):
        return 17, 0
    output[:len(font)] = font
    return 0, len(font)


def walk(line, offset):
    s = step(line, offset)
    return (0, 1, 0, offset) if s == END else (10, 0, 0, 0) if s == ILL_FORMED else (0, 0, *s)


def station_page(b):
    """What the program writes."""
    code = checked(b)
    return b"refused %d\n" % code if code else page_file(b, page(b))
