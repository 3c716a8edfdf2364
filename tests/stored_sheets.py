"""Makes crates/stored_sheets/stdin and crates/stored_sheets/stdout again.

The sheets and the check below follow docs/SHEET.md and RFC 3629, and use nothing of the crates. Beside each sheet, or each group
of sheets, stands the number of the refusal that is meant, or 0; the check must give the same. In a pair of faults it is the
earlier one. Prints the number, the refusal and the name of each sheet.

Usage: python3 tests/stored_sheets.py
"""
import os
import struct

# ---- a sheet's bytes, from its numbers; a number that is named takes the place of the right one

HEADER = dict(edition=1, width=4, height=2, paper=200, zero=0, fonts_at=24, end=b"")
FONT = dict(atlas=b"", mapping=b"", replacement=0, atlas_width=0, cw=0, ch=0, s=0, baseline=0, strike=(0, 0), under=(0, 0), zero=0, gap=b"")
ITEM = dict(x=0, y=0, text=b"", slot=None, font=0, text_mode=0, text_grey=0, back_mode=0, back_grey=0, under_mode=0, under_grey=0,
            strike_mode=0, strike_grey=0, alignment=0, baseline=0, kind=0, height=0, zero=0, gap=b"")


def font(**changed):
    """A font without a glyph, but for what is named."""
    return {**FONT, **changed}


def sample(**changed):
    """The sample font of docs/SHEET.md."""
    own = dict(atlas=b"\x90\x60", mapping=b"AB", replacement=1, atlas_width=4, cw=2, ch=2, s=1, baseline=1, strike=(0, 1), under=(3, 1))
    return font(**{**own, **changed})


def item(**changed):
    """An item with an empty text, but for what is named. Its slot has the text's length if no other bytes are given."""
    return {**ITEM, **changed}


def sheet(fonts=(), items=(), **changed):
    """The file: header, records, then each font's gap, atlas and mapping and each item's gap and slot, and bytes past the last."""
    h = {**HEADER, "font_count": len(fonts), "item_count": len(items), "items_at": 24 + 28 * len(fonts), **changed}
    at = 24 + 28 * len(fonts) + 28 * len(items)
    records = pieces = b""
    for f in fonts:
        pieces += f["gap"]
        atlas_at = at + len(pieces)
        pieces += f["atlas"]
        mapping_at = at + len(pieces)
        pieces += f["mapping"]
        records += struct.pack("<IIIHHH", f.get("atlas_at", atlas_at), f.get("atlas_size", len(f["atlas"])), f.get("mapping_at", mapping_at),
                               f.get("mapping_size", len(f["mapping"])), f["replacement"], f["atlas_width"])
        records += bytes([f["cw"], f["ch"], f["s"], f["baseline"], *f["strike"], *f["under"]]) + struct.pack("<H", f["zero"])
    for i in items:
        slot = i["text"] if i["slot"] is None else i["slot"]
        pieces += i["gap"]
        records += struct.pack("<hhIHH", i["x"], i["y"], i.get("slot_at", at + len(pieces)), i.get("slot_size", len(slot)),
                               i.get("size", len(i["text"])))
        records += bytes([i["font"], i["text_mode"], i["text_grey"], i["back_mode"], i["back_grey"], i["under_mode"], i["under_grey"],
                          i["strike_mode"], i["strike_grey"], i["alignment"], i["baseline"], i["kind"]]) + struct.pack("<HH", i["height"], i["zero"])
        pieces += slot
    rest = records + pieces + h["end"]
    return struct.pack("<HHHBBHHIII", h["edition"], h["width"], h["height"], h["paper"], h["font_count"], h["item_count"], h["zero"], h["fonts_at"],
                       h["items_at"], h.get("length", 24 + len(rest))) + rest


# ---- RFC 3629, section 4: the syntax of UTF-8 byte sequences

TAIL = (0x80, 0xBF)
SYNTAX = [
    [(0x00, 0x7F)],
    [(0xC2, 0xDF), TAIL],
    [(0xE0, 0xE0), (0xA0, 0xBF), TAIL],
    [(0xE1, 0xEC), TAIL, TAIL],
    [(0xED, 0xED), (0x80, 0x9F), TAIL],
    [(0xEE, 0xEF), TAIL, TAIL],
    [(0xF0, 0xF0), (0x90, 0xBF), TAIL, TAIL],
    [(0xF1, 0xF3), TAIL, TAIL, TAIL],
    [(0xF4, 0xF4), (0x80, 0x8F), TAIL, TAIL],
]


def characters(data):
    """The characters that the bytes spell, or None if a sequence is not allowed."""
    out, at = [], 0
    while at < len(data):
        for form in SYNTAX:
            part = data[at:at + len(form)]
            if len(part) == len(form) and all(low <= b <= high for b, (low, high) in zip(part, form)):
                break
        else:
            return None
        value = part[0] if len(part) == 1 else part[0] & (0x7F >> len(part))
        for b in part[1:]:
            value = value * 64 + b % 64
        out.append(value)
        at += len(part)
    return out


# ---- the check of docs/SHEET.md

def number(b, at, size):
    return int.from_bytes(b[at:at + size], "little")


def spelled(listed):
    """How many characters a mapping's data spell."""
    total, at = 0, 0
    while at < len(listed):
        if listed[at] != 0:
            total, at = total + 1, at + 1
        elif at + 2 < len(listed):
            start, end = listed[at + 1], listed[at + 2]
            surrogates = max(0, min(end, 0xDFFF) - max(start, 0xD800) + 1)
            total, at = total + max(0, end - start + 1 - surrogates), at + 3
        else:
            break
    return total


def laid_out(b, fonts, items):
    """Whether the records and pieces stand as laid out."""
    at = 24 + 28 * fonts + 28 * items
    if number(b, 12, 4) != 24 or number(b, 16, 4) != 24 + 28 * fonts or at > len(b):
        return False
    pieces = []
    for o in range(24, 24 + 28 * fonts, 28):
        pieces += [(number(b, o, 4), number(b, o + 4, 4)), (number(b, o + 8, 4), number(b, o + 12, 2))]
    for o in range(24 + 28 * fonts, at, 28):
        pieces.append((number(b, o + 4, 4), number(b, o + 8, 2)))
    for offset, size in pieces:
        if offset != at:
            return False
        at += size
    return at == len(b)


def font_refusal(b, o):
    if b[o + 18] > 64 or b[o + 19] > 64 or b[o + 20] > 64 or number(b, o + 16, 2) > 1024 or number(b, o + 26, 2) != 0:
        return 6
    start = number(b, o + 8, 4)
    listed = characters(b[start:start + number(b, o + 12, 2)])
    if listed is None:
        return 7
    return 8 if spelled(listed) > 65536 else 0


def item_refusal(b, o, fonts):
    start, slot, size = number(b, o + 4, 4), number(b, o + 8, 2), number(b, o + 10, 2)
    modes = ((13, 1), (15, 1), (17, 2), (19, 2), (21, 2), (22, 3), (23, 1))
    if slot > 256 or size > slot or b[o + 12] >= fonts or any(b[o + at] > most for at, most in modes):
        return 9
    if number(b, o + 24, 2) > 1000 or number(b, o + 26, 2) != 0 or any(b[start + size:start + slot]):
        return 9
    return 10 if characters(b[start:start + size]) is None else 0


def check(b):
    """The number of the first refusal, or 0."""
    if not 24 <= len(b) <= 65536 or number(b, 20, 4) != len(b) or number(b, 10, 2) != 0:
        return 1
    if number(b, 0, 2) != 1:
        return 2
    width, height, fonts, items = number(b, 2, 2), number(b, 4, 2), b[7], number(b, 8, 2)
    if not 1 <= width <= 512 or not 1 <= height <= 512 or width * height > 65536:
        return 3
    if fonts > 4 or items > 64:
        return 4
    if not laid_out(b, fonts, items):
        return 5
    tests = [font_refusal(b, 24 + 28 * k) for k in range(fonts)] + [item_refusal(b, 24 + 28 * (fonts + k), fonts) for k in range(items)]
    return next((n for n in tests if n != 0), 0)


# ---- the stored sheets

SHEETS = []


def store(name, refusal, b):
    SHEETS.append((name, refusal, b))


def store_text(name, refusal, text):
    store(f"text {name}", refusal, sheet([font()], [item(text=text)]))


def store_mapping(name, refusal, mapping):
    store(f"mapping {name}", refusal, sheet([font(mapping=mapping)]))


def utf8(*values):
    """The characters' bytes, by RFC 3629's table of section 3."""
    out = b""
    for v in values:
        if v < 0x80:
            out += bytes([v])
        elif v < 0x800:
            out += bytes([0xC0 | v >> 6, 0x80 | v & 63])
        elif v < 0x10000:
            out += bytes([0xE0 | v >> 12, 0x80 | v >> 6 & 63, 0x80 | v & 63])
        else:
            out += bytes([0xF0 | v >> 18, 0x80 | v >> 12 & 63, 0x80 | v >> 6 & 63, 0x80 | v & 63])
    return out


def span(start, end):
    """The entry of a mapping for all characters from start to end."""
    return b"\0" + utf8(start) + utf8(end)


def accepted():
    marked = bytes.fromhex("01000400 0200C800 00000000 18000000 18000000 18000000")
    assert marked == sheet()
    store("the page without fonts and items", 0, marked)
    store("paper 0, frame 1 by 1", 0, sheet(width=1, height=1, paper=0))
    store("the sample font alone", 0, sheet([sample()]))
    ab = item(text=b"AB", text_mode=1, text_grey=9, back_mode=1, back_grey=5)
    store("the sample font and AB", 0, sheet([sample()], [ab]))
    store("every alignment and baseline", 0, sheet([sample()], [item(text=b"AB\r\nA", alignment=a, baseline=b) for a in range(3) for b in range(4)]))
    modes = [item(text_mode=t, back_mode=b, under_mode=u, strike_mode=s) for t in range(2) for b in range(2) for u in range(3) for s in range(3)]
    store("every mode", 0, sheet([font()], modes))
    store("unused greys", 0, sheet([font()], [item(text_grey=255, back_grey=254, under_grey=253, strike_grey=252)]))
    store("heights in pixels and percent", 0, sheet([font()], [item(kind=k, height=h) for k in range(2) for h in (0, 1, 100, 255, 256, 1000)]))
    store("places at the ends", 0, sheet([font()], [item(x=x, y=y) for x in (-32768, 32767) for y in (-32768, 32767)]))
    fonts = [sample(), font(), sample(mapping=b"\0 ~"), sample(atlas=b"\xFF" * 9, mapping=b"")]
    store("four fonts, six items", 0, sheet(fonts, [item(text=b"A" * k, font=k % 4, slot=b"A" * k + b"\0" * (6 - k)) for k in range(6)]))
    store("64 items", 0, sheet([font()], [item() for _ in range(64)]))
    store("font sizes at the limits", 0, sheet([font(cw=64, ch=64, s=64, atlas_width=1024)]))
    store("font sizes without a limit", 0, sheet([font(replacement=65535, baseline=255, strike=(255, 255), under=(255, 255))]))
    store("atlas of width 0 with bytes", 0, sheet([font(atlas=b"\x80\xFF\xC0")]))
    store("atlas and mapping of 300 bytes", 0, sheet([font(atlas=b"\xC0" * 300, mapping=b"A" * 300)], [item(text=b"A")]))
    store("slot of 256, full", 0, sheet([font()], [item(text=b"z" * 256)]))
    store("slot of 256, empty", 0, sheet([font()], [item(slot=bytes(256))]))
    store("text with 00, 0A and 0D", 0, sheet([font()], [item(text=b"\0A\0\n\r\r\n\0", slot=b"\0A\0\n\r\r\n\0" + bytes(3))]))


def refused_1():
    store("no byte", 1, b"")
    store("one byte", 1, b"\1")
    store("23 bytes", 1, sheet()[:23])
    store("23 bytes, length 23", 1, sheet(length=23)[:23])
    store("length one too small", 1, sheet(length=23))
    store("length one too large", 1, sheet(length=25))
    store("length 0", 1, sheet(length=0))
    store("length FFFFFFFF", 1, sheet(length=0xFFFFFFFF))
    store("length right in its low two bytes", 1, sheet(length=24 + 65536))
    store("length right in its low three bytes", 1, sheet(length=24 + (1 << 24)))
    store("length with bytes exchanged", 1, sheet(length=24 << 24))
    store("a byte past the length", 1, sheet() + b"\0")
    store("a sheet with an item, cut by one", 1, sheet([font()], [item(text=b"A")])[:-1])
    store("header zero field 1", 1, sheet(zero=1))
    store("header zero field 0100", 1, sheet(zero=256))
    store("header zero field FFFF", 1, sheet(zero=65535))


def refused_2():
    for edition in (0, 2, 255, 256, 257, 65535):
        store(f"edition {edition}", 2, sheet(edition=edition))


def refused_3():
    for width, height in ((256, 256), (512, 128), (128, 512), (512, 1), (1, 512)):
        store(f"frame {width} by {height}", 0, sheet(width=width, height=height))
    for width, height in ((0, 1), (1, 0), (0, 0), (513, 1), (1, 513), (512, 129), (129, 512), (257, 256), (256, 257), (512, 512), (256, 512),
                          (65535, 1), (1, 65535), (65535, 65535), (0, 65535), (32768, 2), (1024, 64)):
        store(f"frame {width} by {height}", 3, sheet(width=width, height=height))


def refused_4():
    store("five fonts", 4, sheet([font() for _ in range(5)]))
    store("65 items", 4, sheet([font()], [item() for _ in range(65)]))
    store("255 fonts, none stored", 4, sheet(font_count=255))
    store("5 fonts, none stored", 4, sheet(font_count=5))
    for items in (65, 256, 65535):
        store(f"{items} items, none stored", 4, sheet(item_count=items))
    store("5 fonts and 65 items, none stored", 4, sheet(font_count=5, item_count=65))


def refused_5_records():
    for at in (0, 23, 25, 24 + 65536, 24 + (1 << 24), 0x18000000, 0xFFFFFFFF):
        store(f"fonts at {at:X}", 5, sheet([font()], fonts_at=at))
    store("fonts at 0, no fonts", 5, sheet(fonts_at=0))
    for at in (0, 24, 51, 53, 52 + 65536, 52 + (1 << 24), 0xFFFFFFFF):
        store(f"items at {at:X}", 5, sheet([font()], [item()], items_at=at))
    store("items at 52, no fonts", 5, sheet(items_at=52))
    store("one font past the end", 5, sheet(font_count=1, items_at=52))
    store("one item past the end", 5, sheet(item_count=1))
    store("4 fonts and 64 items past the end", 5, sheet(font_count=4, item_count=64, items_at=136))
    store("font record cut by one", 5, sheet(font_count=1, items_at=52, end=bytes(27)))
    store("item record cut by one", 5, sheet([font()], item_count=1, end=bytes(27)))
    store("second item past the end", 5, sheet([font()], [item()], item_count=2))
    store("second font in the item's place", 5, sheet([font()], [item()], font_count=2, item_count=0, items_at=80))


def refused_5_pieces():
    full = dict(text=b"AB", slot=b"AB\0")
    store("byte past the last slot", 5, sheet([sample()], [item(**full)], end=b"\0"))
    store("byte past the last mapping", 5, sheet([sample()], end=b"\0"))
    store("byte past the header", 5, sheet(end=b"\0"))
    store("byte before the atlas", 5, sheet([sample(gap=b"\0")], [item(**full)]))
    store("byte before the second atlas", 5, sheet([sample(), sample(gap=b"\0")], [item(**full)]))
    store("byte before the slot", 5, sheet([sample()], [item(gap=b"\0", **full)]))
    store("byte before the second slot", 5, sheet([sample()], [item(**full), item(gap=b"\0", **full)]))
    store("byte before the mapping", 5, sheet([sample(atlas=b"\x90\x60\0", atlas_size=2)], [item(**full)]))
    # one font and one item: the pieces start at 80
    store("atlas one too low", 5, sheet([sample(atlas_at=79)], [item(**full)]))
    store("atlas one too high", 5, sheet([sample(atlas_at=81)], [item(**full)]))
    store("atlas at 0", 5, sheet([sample(atlas_at=0)], [item(**full)]))
    store("mapping one too low", 5, sheet([sample(mapping_at=81)], [item(**full)]))
    store("mapping one too high", 5, sheet([sample(mapping_at=83)], [item(**full)]))
    store("mapping before the atlas", 5, sheet([sample(atlas_at=82, mapping_at=80)], [item(**full)]))
    store("mapping in the atlas", 5, sheet([sample(mapping_at=80)], [item(**full)]))
    store("slot in the mapping", 5, sheet([sample()], [item(slot_at=82, slot_size=2, text=b"AB")], end=b""))
    store("slot one too low", 5, sheet([sample()], [item(slot_at=83, **full)]))
    store("slot one too high", 5, sheet([sample()], [item(slot_at=85, **full)]))
    store("last slot one past the end", 5, sheet([sample()], [item(text=b"AB", slot=b"AB\0", slot_size=4)]))
    store("slot one too short", 5, sheet([sample()], [item(text=b"AB", slot=b"AB\0", slot_size=2)]))
    store("slots exchanged", 5, sheet([sample()], [item(text=b"AB", slot_at=114), item(text=b"BA", slot_at=112)]))
    store("two items with one slot", 5, sheet([sample()], [item(text=b"AB"), item(text=b"", slot=b"", slot_at=112, slot_size=2, size=2)]))
    store("fonts' pieces exchanged", 5, sheet([sample(atlas_at=84, mapping_at=86), sample(atlas_at=80, mapping_at=82)]))
    store("two fonts with one atlas", 5, sheet([sample(), sample(atlas=b"", atlas_at=80, atlas_size=2)]))
    store("atlases first, then mappings", 5, sheet([sample(mapping_at=84), sample(atlas_at=82)]))
    store("mapping one too short", 5, sheet([sample(mapping_size=1)], [item(**full)]))
    store("mapping one too long", 5, sheet([sample(mapping_size=3)]))
    store("atlas of length 0 elsewhere", 5, sheet([font(atlas_at=0)]))
    store("mapping of length 0 elsewhere", 5, sheet([font(mapping_at=0)]))
    store("mapping of length 0 before its atlas", 5, sheet([font(atlas=b"\0", mapping_at=52)]))
    store("slot of size 0 at 0", 5, sheet([font()], [item(slot_at=0)]))
    store("slot of size 0 past the end", 5, sheet([font()], [item(slot_at=81)]))
    store("slot of size 0 in the next slot", 5, sheet([font()], [item(slot_at=109), item(text=b"A")]))


def refused_5_sums():
    most = 0xFFFFFFFF
    store("atlas at FFFFFFFF", 5, sheet([sample(atlas_at=most)]))
    store("atlas right in its low two bytes", 5, sheet([sample(atlas_at=52 + 65536)]))
    store("atlas right in its low three bytes", 5, sheet([sample(atlas_at=52 + (1 << 24))]))
    store("mapping at FFFFFFFF", 5, sheet([sample(mapping_at=most)]))
    store("mapping right in its low two bytes", 5, sheet([sample(mapping_at=54 + 65536)]))
    store("mapping right in its low three bytes", 5, sheet([sample(mapping_at=54 + (1 << 24))]))
    store("slot at FFFFFFFF", 5, sheet([font()], [item(text=b"A", slot_at=most)]))
    store("slot right in its low two bytes", 5, sheet([font()], [item(text=b"A", slot_at=80 + 65536)]))
    store("slot right in its low three bytes", 5, sheet([font()], [item(text=b"A", slot_at=80 + (1 << 24))]))
    store("atlas of FFFFFFFF bytes", 5, sheet([sample(atlas_size=most)]))
    store("atlas length right in its low two bytes", 5, sheet([sample(atlas_size=2 + 65536)]))
    store("atlas length right in its low three bytes", 5, sheet([sample(atlas_size=2 + (1 << 24))]))
    store("mapping length right in its low byte", 5, sheet([sample(mapping_size=2 + 256)]))
    store("mapping of FFFF bytes", 5, sheet([sample(mapping_size=65535)]))
    store("slot of FFFF bytes", 5, sheet([font()], [item(text=b"A", slot_size=65535)]))
    # sums that come out right in 32 bits only
    store("atlas of FFFFFFFF bytes, mapping one below it", 5, sheet([font(atlas_size=most, mapping_at=51, mapping=b"ABCDE", mapping_size=6)]))
    store("atlas of FFFFFFF0 bytes, mapping 16 below it", 5, sheet([font(atlas_size=most - 15, mapping_at=36, mapping=b"", mapping_size=16)]))
    half = 1 << 31
    store("two atlases of 80000000 bytes", 5, sheet([font(atlas_at=80, atlas_size=half, mapping_at=80 + half),
                                                      font(atlas_at=80 + half, atlas_size=half, mapping_at=80)]))
    store("everything at FFFFFFFF", 5, sheet([font(atlas_at=most, atlas_size=most, mapping_at=most, mapping_size=65535)],
                                             [item(slot_at=most, slot_size=65535, size=65535)], fonts_at=most, items_at=most))


def refused_6():
    for name in ("cw", "ch", "s"):
        for value in (65, 128, 255):
            store(f"{name} {value}", 6, sheet([font(**{name: value})]))
    for value in (1025, 1280, 65535):
        store(f"atlas width {value}", 6, sheet([font(atlas_width=value)]))
    for value in (1, 256, 65535):
        store(f"font zero field {value}", 6, sheet([sample(zero=value)]))
    store("second font's cw 65", 6, sheet([sample(), sample(cw=65)]))
    store("fourth font's zero field 1", 6, sheet([font(), font(), font(), font(zero=1)]))


# well-formed: the ends of each row of RFC 3629's syntax, and the neighbours of the surrogates
GOOD = ["00", "7F", "C280", "DFBF", "E0A080", "E0BFBF", "E18080", "ECBFBF", "ED8080", "ED9FBF", "EE8080", "EFBFBF", "F0908080", "F0BFBFBF",
        "F1808080", "F3BFBFBF", "F4808080", "F48FBFBF", "41E289A2CE912E", "ED959CEAB5ADEC96B4", "E697A5E69CACE8AA9E", "EFBBBFF0A38EB4"]
BAD = [
    # overlong
    "C080", "C0AF", "C1BF", "E08080", "E09FBF", "F0808080", "F08FBFBF",
    # surrogates, and above 10FFFF
    "EDA080", "EDAFBF", "EDB080", "EDBFBF", "EDA080EDB080", "F4908080", "F4BFBFBF",
    # cut by the end
    "C2", "DF", "E0", "E0A0", "E282", "ED9F", "EF", "F0", "F090", "F09080", "F48FBF", "41C3",
    # cut by another byte
    "C241", "C27F", "C2C0", "C200", "E0C080", "E17F80", "E0A07F", "ED7F80", "F1807F80", "F47F8080", "E24182",
    "E28241", "E282C0", "E282E282AC", "F0419080", "F09041BF", "F0908041", "F09080C0", "F0C08080",
    # a continuation byte alone
    "80", "BF", "4180", "C28080", "E282AC82", "F090808080",
    # lead bytes that never appear
    "F5808080", "F6808080", "F7BFBFBF", "F888808080", "F9", "FA", "FB", "FC8480808080", "FD", "FE", "FF",
    # ill-formed behind what is well-formed
    "4142434445464748C0AE", "F48FBFBFF4908080", "2FC0AE2E2F",
]


def refused_7_and_10():
    for code in GOOD:
        store_mapping(code, 0, bytes.fromhex(code))
        store_text(code, 0, bytes.fromhex(code))
    for code in BAD:
        store_mapping(code, 7, bytes.fromhex(code))
        store_text(code, 10, bytes.fromhex(code))
    for code in ("00C08041", "0041C080", "0041C3", "00C3", "00EDA080EE8080", "00ED9FBFEDBFBF", "0061C1BF62", "00F0908080F4908080", "000080",
                 "00006180"):
        store_mapping(code, 7, bytes.fromhex(code))
    store("mapping cut, the next atlas goes on", 7, sheet([font(mapping=b"\xE2\x82"), font(atlas=b"\xAC")]))
    store("mapping cut, the slot goes on", 7, sheet([font(mapping=b"\xC3")], [item(text=b"\xA9")]))
    store("mapping ill-formed at its byte 299", 7, sheet([font(mapping=b"A" * 299 + b"\x80")]))
    store("second font's mapping ill-formed", 7, sheet([sample(), font(mapping=b"\x80")]))
    store("atlas that is ill-formed as a text", 0, sheet([font(atlas=b"\x80\xFF\xC0\x80")]))
    store("text cut, the next slot goes on", 10, sheet([font()], [item(text=b"\xC3"), item(text=b"\xA9")]))
    store("text cut, the slot's zeros follow", 10, sheet([font()], [item(text=b"\xE2\x82", slot=b"\xE2\x82\0\0")]))
    store("text ill-formed at the end of a slot of 256", 10, sheet([font()], [item(text=b"z" * 255 + b"\xC3")]))
    store("second item's text ill-formed", 10, sheet([font()], [item(text=b"A"), item(text=b"A\xFF")]))


def refused_8():
    store_mapping("empty", 0, b"")
    for code in ("00", "0000", "0041", "000041", "00626163", "00ED9FBFEE8080", "0000000000", "414100", "00414100"):
        store_mapping(f"list {code}", 0, bytes.fromhex(code))
    store_mapping("10000 to 1FFFF", 0, span(0x10000, 0x1FFFF))
    store_mapping("10000 to 20000", 8, span(0x10000, 0x20000))
    store_mapping("10000 to 1FFFF, A", 8, span(0x10000, 0x1FFFF) + b"A")
    store_mapping("A, 10000 to 1FFFF", 8, b"A" + span(0x10000, 0x1FFFF))
    store_mapping("10001 to 1FFFF, A", 0, span(0x10001, 0x1FFFF) + b"A")
    store_mapping("10000 to 1FFFF, 00 A", 0, span(0x10000, 0x1FFFF) + b"\0A")
    store_mapping("10000 to 1FFFF, none from b to a", 0, span(0x10000, 0x1FFFF) + b"\0ba")
    store_mapping("10000 to 1FFFF, from a to a", 8, span(0x10000, 0x1FFFF) + b"\0aa")
    store_mapping("0 to FFFF", 0, span(0, 0xFFFF))
    store_mapping("0 to 107FF, surrogates skipped", 0, span(0, 0x107FF))
    store_mapping("0 to 10800, surrogates skipped", 8, span(0, 0x10800))
    store_mapping("D7FF to 107FF and D7FF to 1C7FF", 8, span(0xD7FF, 0x107FF) + span(0xD7FF, 0x1C7FF))
    store_mapping("0 to 10FFFF", 8, span(0, 0x10FFFF))
    store_mapping("10FFFF to 0", 0, span(0x10FFFF, 0))
    store_mapping("10000 to 17FFF twice", 0, span(0x10000, 0x17FFF) * 2)
    store_mapping("10000 to 17FFF, 10000 to 18000", 8, span(0x10000, 0x17FFF) + span(0x10000, 0x18000))
    store_mapping("10000 to 1FFFF twice, 0 in 16 bits", 8, span(0x10000, 0x1FFFF) * 2)
    store_mapping("0 to 10FFFF, 16 times", 8, span(0, 0x10FFFF) * 16)
    store("second font's mapping too long", 8, sheet([sample(), font(mapping=span(0, 0x10FFFF))]))


def refused_9():
    for name, values in dict(text_mode=(2, 255), back_mode=(2, 255), under_mode=(3, 255), strike_mode=(3, 255), alignment=(3, 255), baseline=(4, 255),
                             kind=(2, 255), height=(1001, 1256, 65535), zero=(1, 256, 65535), font=(1, 255)).items():
        for value in values:
            store(f"item's {name} {value}", 9, sheet([font()], [item(**{name: value})]))
    store("percent 1001", 9, sheet([font()], [item(kind=1, height=1001)]))
    store("no fonts", 9, sheet([], [item()]))
    store("font 4 of 4", 9, sheet([font() for _ in range(4)], [item(font=4)]))
    store("font 3 of 4", 0, sheet([font() for _ in range(4)], [item(font=3)]))
    store("slot of 257", 9, sheet([font()], [item(slot=bytes(257))]))
    store("slot of 512", 9, sheet([font()], [item(text=b"A", slot=b"A" + bytes(511))]))
    store("text of 257 in a slot of 257", 9, sheet([font()], [item(text=b"z" * 257)]))
    store("text one past the slot", 9, sheet([font()], [item(text=b"A", size=2)]))
    store("text past an empty slot", 9, sheet([font()], [item(size=1)]))
    store("text past the slot, in the next", 9, sheet([font()], [item(text=b"A", size=2), item(text=b"B")]))
    store("text length FFFF", 9, sheet([font()], [item(text=b"A", size=65535)]))
    store("text length 0100, slot of 1", 9, sheet([font()], [item(text=b"A", size=256)]))
    store("text length 0101, slot of 1", 9, sheet([font()], [item(text=b"A", size=257)]))
    store("slot's first tail byte not 00", 9, sheet([font()], [item(text=b"A", slot=b"AB\0\0")]))
    store("slot's last tail byte not 00", 9, sheet([font()], [item(text=b"A", slot=b"A\0\0\1")]))
    store("slot's middle tail byte not 00", 9, sheet([font()], [item(text=b"A", slot=b"A\0 \0")]))
    store("tail of an empty text not 00", 9, sheet([font()], [item(slot=b"\x80")]))
    store("tail byte 255 of a slot of 256 not 00", 9, sheet([font()], [item(slot=bytes(255) + b"\xFF")]))
    store("item 63's zero field 1", 9, sheet([font()], [item() for _ in range(63)] + [item(zero=1)]))
    store("second item's font 2 of 2", 9, sheet([font(), font()], [item(font=1), item(font=2)]))


def faulty(faults):
    """A sheet with the faults named by their refusals, each in the first record that can have it."""
    header = {1: dict(zero=1), 2: dict(edition=2), 3: dict(width=0), 5: dict(end=b"\0")}
    changed = {k: v for n in header if n in faults for k, v in header[n].items()}
    mapping = (span(1, 0x10FFFF) if 8 in faults else b"A") + (b"\xC0\x80" if 7 in faults else b"")
    first = font(mapping=mapping, cw=65 if 6 in faults else 2)
    only = item(text=b"A\xC3" if 10 in faults else b"AB", alignment=3 if 9 in faults else 2)
    return sheet([first] + [font() for _ in range(4 if 4 in faults else 0)], [only], **changed)


def order():
    store("no fault", 0, faulty(()))
    for n in range(1, 11):
        store(f"fault {n}", n, faulty((n,)))
    for n in range(1, 11):
        for m in range(n + 1, 11):
            store(f"faults {n} and {m}", n, faulty((n, m)))
    for n in range(1, 9):
        store(f"faults {n} to 10", n, faulty(range(n, 11)))


def order_of_records():
    bad = {6: dict(zero=1), 7: dict(mapping=b"\xC0\x80"), 8: dict(mapping=span(0, 0x10FFFF))}
    for n in bad:
        for m in bad:
            if n != m:
                store(f"font 0's {n}, font 1's {m}", n, sheet([font(**bad[n]), font(**bad[m])]))
        store(f"font 1's {n}, item 0's 9", n, sheet([font(), font(**bad[n])], [item(kind=2)]))
        store(f"font 1's {n}, item 0's 10", n, sheet([font(), font(**bad[n])], [item(text=b"\xFF")]))
    store("font 3's 8, item 0's 9", 8, sheet([font(), font(), font(), font(**bad[8])], [item(zero=1)]))
    store("7 behind 8 in one mapping", 7, sheet([font(mapping=span(1, 0x10FFFF) + b"\xC0\x80")]))
    store("7 before 8 in one mapping", 7, sheet([font(mapping=b"\x80" + span(1, 0x10FFFF))]))
    store("item 0's 10, item 1's 9", 10, sheet([font()], [item(text=b"\xFF"), item(alignment=3)]))
    store("item 0's 9, item 1's 10", 9, sheet([font()], [item(alignment=3), item(text=b"\xFF")]))
    store("item 62's 10, item 63's 9", 10, sheet([font()], [item() for _ in range(62)] + [item(text=b"\xFF"), item(zero=1)]))
    store("one item's 9 by its zero field, and 10", 9, sheet([font()], [item(text=b"\xFF", zero=1)]))
    store("one item's 9 by its slot's tail, and 10", 9, sheet([font()], [item(text=b"\xFF", slot=b"\xFF\1")]))
    store("one item's 9 by its font, and 10", 9, sheet([font()], [item(text=b"\xFF", font=1)]))
    store("one item's 9 by its slot of 257, and 10", 9, sheet([font()], [item(text=b"\xFF" * 257)]))


def main():
    for fill in (accepted, refused_1, refused_2, refused_3, refused_4, refused_5_records, refused_5_pieces, refused_5_sums, refused_6,
                 refused_7_and_10, refused_8, refused_9, order, order_of_records):
        fill()
    stdin, stdout = b"", ""
    for k, (name, refusal, b) in enumerate(SHEETS):
        assert check(b) == refusal, (name, check(b), refusal)
        stdin += struct.pack("<I", len(b)) + b
        stdout += f"{k} refused {refusal}\n" if refusal else f"{k} accepted\n"
        print(k, refusal, name)
    # a record that is cut ends the run
    stdin += struct.pack("<I", 0xFFFFFFFF) + sheet()
    stdout += "cut\n"
    assert len(stdin) < 60000
    folder = os.path.join(os.path.dirname(os.path.abspath(__file__)), "..", "crates", "stored_sheets")
    with open(os.path.join(folder, "stdin"), "wb") as f:
        f.write(stdin)
    with open(os.path.join(folder, "stdout"), "w") as f:
        f.write(stdout)


if __name__ == "__main__":
    main()
