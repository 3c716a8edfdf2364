"""Makes crates/edit_lists/stdin and stdout: a sheet, a list of single edits and batches, and what docs/SHEET.md says of them.

A plain model that follows docs/SHEET.md and uses nothing of the crates: the page is drawn pixel by pixel, the sheet is kept as bytes, and each edit is
refused or made on those bytes. Run it from the repository's root.
"""
import os
import struct

WIDTH, HEIGHT, PAPER = 61, 43, 200
NONE, TEXT_COLOR, OWN = 0, 1, 2
LEFT, CENTRE, RIGHT = 0, 1, 2
TOP, BOTTOM, MIDDLE, ALPHABETIC = 0, 1, 2, 3


# the sheet

def font(atlas, mapping, replacement, atlas_width, cw, ch, s, baseline, strike, under):
    return dict(atlas=atlas, mapping=mapping, rest=(replacement, atlas_width, cw, ch, s, baseline, *strike, *under))


def item(x, y, text, slot, number, style, alignment, baseline, height_kind, height):
    return dict(place=(x, y), text=text, slot=slot, font=number, style=style, layout=(alignment, baseline, height_kind, height))


def build(fonts, items):
    at = 24 + 28 * len(fonts) + 28 * len(items)
    records, pieces = b'', b''
    for f in fonts:
        records += struct.pack('<IIIHHH8BH', at, len(f['atlas']), at + len(f['atlas']), len(f['mapping']), *f['rest'], 0)
        pieces += f['atlas'] + f['mapping']
        at += len(f['atlas']) + len(f['mapping'])
    for i in items:
        records += struct.pack('<hhIHHB8s3BHH', *i['place'], at, i['slot'], len(i['text']), i['font'], bytes(i['style']),
                               *i['layout'], 0)
        pieces += i['text'].ljust(i['slot'], b'\0')
        at += i['slot']
    head = struct.pack('<HHHBBHHIII', 1, WIDTH, HEIGHT, PAPER, len(fonts), len(items), 0, 24, 24 + 28 * len(fonts), at)
    return bytearray(head + records + pieces)


def record(sheet, n):
    return 24 + 28 * sheet[7] + 28 * n


def read_item(sheet, n):
    (x, y, slot, size, length, number, style, alignment, baseline, kind, height,
     _) = struct.unpack_from('<hhIHHB8s3BHH', sheet, record(sheet, n))
    (atlas, atlas_length, mapping, mapping_length, replacement, atlas_width, cw, ch, s, base, so, sh, uo, uh,
     _) = struct.unpack_from('<IIIHHH8BH', sheet, 24 + 28 * number)
    return dict(x=x, y=y, text=bytes(sheet[slot:slot + length]), style=style, alignment=alignment, baseline=baseline,
                step=height if kind == 0 else ch * height // 100, atlas=bytes(sheet[atlas:atlas + atlas_length]),
                characters=spelled(bytes(sheet[mapping:mapping + mapping_length])), replacement=replacement,
                atlas_width=atlas_width, cw=cw, ch=ch, s=s, base=base, strike=(so, sh), under=(uo, uh))


# characters and the mapping

def spelled(data):
    source = [ord(c) for c in data.decode('utf-8')]
    out, i = [], 0
    while i < len(source):
        if source[i] != 0:
            out.append(source[i])
            i += 1
        elif i + 2 < len(source):
            out += [c for c in range(source[i + 1], source[i + 2] + 1) if not 0xD800 <= c <= 0xDFFF]
            i += 3
        else:
            break
    return out


def well_formed(data):
    try:
        data.decode('utf-8')
        return True
    except UnicodeDecodeError:
        return False


# one line and the text

def lines(i):
    """Each line's start, top edge and characters."""
    y = i['y']
    offset = {TOP: 0, BOTTOM: max(i['ch'] - 1, 0), MIDDLE: max(i['ch'] - 1, 0) // 2, ALPHABETIC: i['base']}[i['baseline']]
    for line in i['text'].split(b'\n'):
        n = len(line.decode('utf-8'))
        w = max(n * (i['cw'] + i['s']) - i['s'], 0)
        half = abs(w - 1) // 2 * (1 if w >= 1 else -1)
        x = i['x'] - {LEFT: 0, CENTRE: half, RIGHT: w - 1}[i['alignment']]
        if line.endswith(b'\r'):
            line = line[:-1]
        yield x, y - offset, [ord(c) for c in line.decode('utf-8')]
        y += i['step']


def advance(i, n):
    if i['style'][0] or i['style'][2]:
        return n * i['cw'] + (n - 1) * i['s'] if n else 0
    return n * (i['cw'] + i['s'])


def cell(i, index):
    """The rows of a glyph's pixels, or none where nothing is drawn."""
    cw, ch, width = i['cw'], i['ch'], i['atlas_width']
    if cw == 0 or ch == 0 or width < cw:
        return None
    row_bytes = (width + 7) // 8
    height = len(i['atlas']) // row_bytes
    g = width // cw
    left, top = index % g * cw, index // g * ch
    if top + ch > height:
        return None
    return [[i['atlas'][(top + r) * row_bytes + (left + c) // 8] >> (7 - (left + c) % 8) & 1 for c in range(cw)] for r in range(ch)]


def decoration_grey(mode, grey, style):
    if mode == OWN:
        return grey
    return style[1] if mode == TEXT_COLOR and style[0] else None


def paint_item(put, i):
    style = i['style']
    text = style[1] if style[0] else None
    background = style[3] if style[2] else None
    for x, top, characters in lines(i):
        n = len(characters)
        for k, c in enumerate(characters):
            at = x + k * (i['cw'] + i['s'])
            index = i['characters'].index(c) if c in i['characters'] else i['replacement']
            for r, row in enumerate(cell(i, index) or []):
                for column, on in enumerate(row):
                    grey = text if on else background
                    if grey is not None:
                        put(at + column, top + r, grey)
            if background is not None and k + 1 < n:
                for r in range(i['ch']):
                    for column in range(i['s']):
                        put(at + i['cw'] + column, top + r, background)
        for (offset, height), grey in ((i['strike'], decoration_grey(style[6], style[7], style)),
                                       (i['under'], decoration_grey(style[4], style[5], style))):
            if grey is not None:
                for r in range(height):
                    for column in range(advance(i, n)):
                        put(x + column, top + offset + r, grey)


def page(sheet):
    frame = bytearray([PAPER]) * (WIDTH * HEIGHT)

    def put(x, y, grey):
        if 0 <= x < WIDTH and 0 <= y < HEIGHT:
            frame[y * WIDTH + x] = grey

    for n in range(struct.unpack_from('<H', sheet, 8)[0]):
        paint_item(put, read_item(sheet, n))
    return frame


# the ink boxes and the damage rectangle, as corners

def ink_rows(i):
    """The rows below a line's top edge that count."""
    style = i['style']
    parts = (((0, i['ch']), style[0] or style[2]),
             (i['strike'], decoration_grey(style[6], style[7], style) is not None),
             (i['under'], decoration_grey(style[4], style[5], style) is not None))
    return [offset + r for (offset, height), counts in parts if counts for r in range(height)]


def ink(i):
    rows = ink_rows(i)
    if not rows:
        return None
    boxes = [(x, top + min(rows), x + advance(i, len(characters)), top + max(rows) + 1) for x, top, characters in lines(i)]
    return join([b for b in boxes if b[0] < b[2]])


def join(boxes):
    boxes = [b for b in boxes if b]
    if not boxes:
        return None
    return (min(b[0] for b in boxes), min(b[1] for b in boxes), max(b[2] for b in boxes), max(b[3] for b in boxes))


def damage(before, after):
    b = join([before, after])
    if not b:
        return (0, 0, 0, 0)
    left, top, right, bottom = max(b[0], 0), max(b[1], 0), min(b[2], WIDTH), min(b[3], HEIGHT)
    return (left, top, right - left, bottom - top) if left < right and top < bottom else (0, 0, 0, 0)


# the edits

def refusal(sheet, kind, n, data):
    if n >= struct.unpack_from('<H', sheet, 8)[0]:
        return 12
    if kind == 'text':
        if len(data) > struct.unpack_from('<H', sheet, record(sheet, n) + 8)[0]:
            return 13
        return 0 if well_formed(data) else 14
    if kind == 'place':
        return 0 if all(-32768 <= z <= 32767 for z in data) else 15
    good = len(data) == 8 and data[0] < 2 and data[2] < 2 and data[4] < 3 and data[6] < 3
    return 0 if good else 16


def store(sheet, kind, n, data):
    at = record(sheet, n)
    if kind == 'text':
        slot, size = struct.unpack_from('<IH', sheet, at + 4)
        struct.pack_into('<H', sheet, at + 10, len(data))
        sheet[slot:slot + size] = data.ljust(size, b'\0')
    elif kind == 'place':
        struct.pack_into('<hh', sheet, at, *data)
    else:
        sheet[at + 13:at + 21] = data


def edit(sheet, kind, n, data):
    """The reply: the code, and the damage rectangle."""
    code = refusal(sheet, kind, n, data)
    if code:
        return (code, 0, 0, 0, 0)
    before = ink(read_item(sheet, n))
    store(sheet, kind, n, data)
    return (0, *damage(before, ink(read_item(sheet, n))))


# the batches

KINDS = ('text', 'place', 'style')


def entry(kind, n, data):
    data = struct.pack('<ii', *data) if kind == 'place' else data
    return struct.pack('<BBH', KINDS.index(kind), n, len(data)) + data


def entries(data):
    """The edits of a batch, or none if it is refused with 22."""
    found = []
    while data:
        if len(data) < 4:
            return None
        kind, n, size = struct.unpack_from('<BBH', data)
        bytes_, data = data[4:4 + size], data[4 + size:]
        if len(bytes_) < size or kind >= len(KINDS) or (KINDS[kind] == 'place' and size != 8):
            return None
        found.append((KINDS[kind], n, struct.unpack('<ii', bytes_) if KINDS[kind] == 'place' else bytes_))
    return found


def batch(sheet, data):
    """The reply: the refusal that stopped it, how many edits were made, and the rectangle that holds theirs."""
    edits = entries(data)
    if edits is None:
        return (22, 0, 0, 0, 0, 0)
    made, boxes = 0, []
    for e in edits:
        code, left, top, w, h = edit(sheet, *e)
        if code:
            break
        made += 1
        boxes.append((left, top, left + w, top + h) if w and h else None)
    left, top, right, bottom = join(boxes) or (0, 0, 0, 0)
    return (code if edits else 0, made, left, top, right - left, bottom - top)


# the stored list and what is written

def stored(kind, n, data):
    if kind == 'place':
        return struct.pack('<BIii', 1, n, *data)
    return struct.pack('<BIH', {'text': 0, 'style': 2, 'batch': 3}[kind], n, len(data)) + data


def line(number, sheet, kind, n, data):
    if kind != 'batch':
        return 'edit %d: %d %d %d %d %d same outside kept' % (number, *edit(sheet, kind, n, data))
    reply = batch(sheet, data)
    return 'batch %d: %d %d %d %d %d %d %s outside kept' % (number, *reply, 'refused' if reply[0] == 22 else 'same')


def checksum(data):
    total = 0
    for b in data:
        total = (total * 257 + b + 1) % 4294967291
    return total


# the sheet and the list

SAMPLE = font(b'\x90\x60', b'AB', 1, 4, 2, 2, 1, 1, (0, 1), (3, 1))
LARGE = font(bytes((37 * k + 13) % 256 for k in range(3 * 14)), b'\0az\xc3\xa9\0\xe2\x82\xac\xe2\x82\xae', 28, 23, 4, 7, 2, 5, (3, 2), (6, 3))
# cells and a strikethrough without rows, and an underline far below
FLAT = font(b'', b'', 0, 0, 3, 0, 1, 4, (14, 0), (9, 2))
ITEMS = [
    item(3, 2, b'AB\nBA\r\nABZ', 16, 0, (1, 9, 1, 5, 2, 7, 0, 0), LEFT, TOP, 0, 5),
    item(30, 12, b'abc\r\nd\xc3\xa9f', 24, 1, (1, 20, 0, 99, 1, 3, 2, 60), CENTRE, ALPHABETIC, 1, 150),
    item(58, 20, b'hello', 20, 1, (0, 44, 1, 77, 1, 8, 1, 9), RIGHT, BOTTOM, 1, 100),
    item(-5, 15, b'over\nthe \xe2\x82\xac edge', 32, 1, (1, 31, 1, 130, 0, 0, 2, 250), LEFT, MIDDLE, 0, 9),
    item(20, 22, b'\r\n\nAB', 12, 0, (0, 0, 0, 0, 2, 66, 2, 99), CENTRE, MIDDLE, 1, 250),
    item(400, 400, b'away', 8, 1, (1, 1, 1, 2, 2, 3, 2, 4), RIGHT, TOP, 0, 0),
    item(12, 9, b'', 256, 1, (1, 111, 1, 140, 1, 0, 1, 0), RIGHT, BOTTOM, 0, 1000),
    item(10, 20, b'lo\nw', 8, 2, (1, 50, 1, 60, 2, 70, 2, 80), CENTRE, TOP, 0, 4),
]
NEITHER = bytes((0, 9, 0, 8, 2, 15, 1, 7))
BOTH = bytes((1, 240, 1, 16, 2, 90, 2, 180))
LIST = [
    ('text', 0, b'BA'), ('text', 0, b'BA'), ('place', 0, (28, 10)), ('style', 0, NEITHER), ('text', 0, b'A\r\nB\r\r\nZ'),
    ('text', 8, b'A'), ('place', 8, (0, 0)), ('style', 8, BOTH), ('text', 4294967295, b''), ('text', 64, b'\xff' * 300),
    ('text', 0, b'A' * 17), ('text', 0, b'A' * 16), ('text', 0, b'\xff' * 17), ('text', 0, b'\xed\xa0\x80'), ('text', 1, b'ab\xc3'),
    ('text', 1, b'\xc0\x80'), ('text', 1, b'\xf4\x90\x80\x80'), ('text', 1, b'\xf4\x8f\xbf\xbf\xc3\xa9z'), ('text', 6, b'x' * 257),
    ('text', 6, b'xyz\n\nuvw\n'), ('place', 6, (40, -990)), ('place', 6, (60, 42)),
    ('place', 1, (-32769, 0)), ('place', 1, (32768, 0)), ('place', 1, (0, -32769)), ('place', 1, (0, 32768)),
    ('place', 1, (2000000000, -2000000)), ('place', 1, (-32768, -32768)), ('place', 1, (32767, 32767)), ('place', 1, (31, 13)),
    ('place', 1, (31, 13)), ('style', 1, b''), ('style', 1, BOTH[:7]), ('style', 1, BOTH + b'\0'), ('style', 1, b'\2' + BOTH[1:]),
    ('style', 1, BOTH[:2] + b'\2' + BOTH[3:]), ('style', 1, BOTH[:4] + b'\3' + BOTH[5:]), ('style', 1, BOTH[:6] + b'\xff' + BOTH[7:]),
    ('style', 1, BOTH), ('style', 1, BOTH), ('style', 2, NEITHER), ('style', 2, bytes((0, 1, 0, 2, 1, 3, 1, 4))),
    ('text', 2, b'ab\xe2\x82\xadAz\r'), ('style', 2, bytes((0, 255, 1, 0, 0, 255, 0, 255))), ('place', 2, (45, 30)),
    ('text', 3, b''), ('place', 3, (5, 5)), ('text', 3, b'\n\n\n'), ('text', 3, b'back\nagain \xe2\x82\xae'), ('place', 3, (-20, 38)),
    ('style', 3, bytes((1, 0, 0, 0, 0, 0, 0, 0))), ('text', 4, b'ABABAB'), ('place', 4, (30, 20)), ('style', 4, bytes((1, 255, 0, 1, 1, 2, 1, 3))),
    ('text', 4, b'\r\r\nA\n\nB'), ('place', 5, (60, 41)), ('place', 5, (-1, -1)), ('place', 5, (2, 40)), ('style', 5, NEITHER),
    ('text', 5, b'qrstuvwx'), ('text', 5, b'qrstuvwxy'), ('style', 6, bytes((1, 250, 0, 0, 2, 1, 2, 2))), ('place', 6, (33, 8)),
    ('text', 6, b'm\nn'), ('text', 0, b'\0A\0'), ('place', 0, (0, 0)), ('style', 0, BOTH),
    # no decoration, above the font's underline; the underline alone; strikethrough and underline with a row between them
    ('style', 0, bytes((1, 9, 0, 8, 0, 7, 0, 6))), ('text', 0, b'AB'), ('style', 0, bytes((0, 9, 0, 8, 2, 7, 0, 6))), ('text', 0, b'BAB'),
    ('style', 2, bytes((0, 9, 0, 8, 2, 70, 2, 60))), ('text', 2, b'apart'),
    # an underline in the text colour without a text grey, with a background; nothing, twice, and then all
    ('style', 2, bytes((0, 9, 1, 80, 1, 7, 0, 6))), ('place', 2, (50, 25)), ('style', 2, bytes((0, 1, 0, 2, 0, 3, 0, 4))),
    ('style', 2, bytes((0, 5, 0, 6, 1, 7, 1, 8))), ('text', 2, b'hidden'), ('place', 2, (40, 20)), ('style', 2, BOTH),
    # no rows in the cells; the underline far below, and a strikethrough without rows beside it and alone
    ('text', 7, b'low'), ('style', 7, bytes((0, 9, 0, 8, 2, 71, 2, 81))), ('place', 7, (12, 22)), ('style', 7, bytes((1, 9, 1, 8, 0, 72, 2, 82))),
    ('text', 7, b'\nlow'),
]

# a reading that changes a dozen lines, of all kinds; the edited items apart, over each other, off the frame and unpainted
READING = [
    ('text', 1, b'2.31'), ('place', 1, (20, 10)), ('text', 4, b'AB\nB'), ('style', 3, BOTH), ('place', 5, (-400, 2)), ('text', 5, b'off'),
    ('style', 2, NEITHER), ('text', 2, b'hidden'), ('style', 2, bytes(8)), ('place', 2, (9, 33)), ('text', 7, b'low'), ('style', 2, BOTH),
]
REFUSED = [
    ('text', 8, b'A'), ('style', 64, BOTH), ('text', 128, b'A'), ('place', 255, (0, 0)), ('text', 0, b'A' * 17), ('text', 1, b'\xc3'),
    ('place', 1, (0, 32768)), ('place', 1, (-32769, 0)), ('style', 1, BOTH[:7]), ('style', 1, BOTH + b'\0'), ('style', 1, b'\2' + BOTH[1:]),
    ('style', 0, b''),
]


def list_of(*edits):
    return b''.join(entry(*e) for e in edits)


PLACE = struct.pack('<ii', 4, 5)
BEFORE = entry('text', 0, b'BABA')
# cut in the head, cut in the data, a length past the end, an unknown kind, a place too short and too long
BAD = [
    BEFORE[:1], BEFORE[:2], BEFORE[:3], BEFORE[:-1], b'\0\0\xff\xff' + b'A' * 9, b'\3\0\0\0', b'\xff\0\0\0', b'\1\0\7\0' + PLACE[:7],
    b'\1\0\x09\0' + PLACE + b'\0', b'\1\0\0\0',
]
BATCHES = [
    list_of(*READING), list_of(*READING), b'', list_of(('text', 0, b'A'), ('text', 0, b''), ('text', 0, b'AB')),
    # the joined rectangle: of two corners; of empty ones alone; of one behind an empty one
    list_of(('place', 0, (0, 0)), ('place', 6, (60, 42))), list_of(('place', 5, (-300, 2)), ('text', 5, b'away')),
    list_of(('place', 5, (-400, 2)), ('text', 1, b'here'), ('text', 5, b'')),
    # refused midway: what stands before it is made, what stands behind it is not; refused at once
    *(list_of(('text', 0, b'AB'[k % 2:]), ('place', 6, (50 - k, 30)), e, ('text', 1, b'behind')) for k, e in enumerate(REFUSED)),
    *(list_of(e, ('text', 1, b'behind')) for e in REFUSED),
    # refused with 22: alone, behind an edit that is not made, and behind one that would be refused; before an edit
    *(before + bad for before in (b'', BEFORE, BEFORE + entry('text', 255, b'A')) for bad in BAD), b'\3\0\4\0BABA' + BEFORE,
    # a text that reads as entries; more edits than a byte counts
    list_of(('text', 6, list_of(('text', 0, b'B'), ('place', 0, (1, 2)))), ('text', 6, b'')), list_of(*[('text', 5, b'')] * 300),
]
LIST += [('batch', 0, data) for data in BATCHES] + [('text', 0, b'AB'), ('place', 6, (33, 8)), ('batch', 0, list_of(*READING))]


def main():
    sheet = build([SAMPLE, LARGE, FLAT], ITEMS)
    stdin = struct.pack('<II', len(sheet), WIDTH * HEIGHT) + sheet + b''.join(stored(*e) for e in LIST)
    out = ['drawing 0'] + [line(k + 1, sheet, *e) for k, e in enumerate(LIST)]
    out += ['drawing 0', 'sheets same', 'frames same', 'sheet %d' % checksum(sheet), 'frame %d' % checksum(page(sheet))]
    folder = os.path.join(os.path.dirname(os.path.abspath(__file__)), '..', 'crates', 'edit_lists')
    with open(os.path.join(folder, 'stdin'), 'wb') as f:
        f.write(stdin)
    with open(os.path.join(folder, 'stdout'), 'w') as f:
        f.write('\n'.join(out) + '\n')


if __name__ == '__main__':
    main()
