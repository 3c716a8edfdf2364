"""Makes crates/joined_runs/stdin and stdout: lines in two runs and whitespace in two widths, and what docs/SHEET.md says of them.

The fonts are those of the samples. What is expected is drawn by the model of the paper (paper_model.py), which uses nothing of the crates, in either way and at
each cut: that the ways agree is found here, and not taken for granted. It takes half a minute.
"""
import os
import struct
import sys

sys.dont_write_bytecode = True
ROOT = os.path.join(os.path.dirname(os.path.abspath(__file__)), "..")
sys.path.insert(0, os.path.join(ROOT, "tools"))
import paper_model as model  # noqa: E402
from station_sheet.description import FontPart, ItemPart, assemble  # noqa: E402

LINE, WHITESPACE = 0, 1


# ---- sheets

def sample_font(name, number=0, spacing=0):
    """A font of a sample's sheet, with a spacing."""
    with open(os.path.join(ROOT, "samples", name + ".sheet"), "rb") as file:
        f = model.font_at(file.read(), number)
    return FontPart("", f.atlas, f.mapping, f.replacement, f.atlas_width, (f.cw, f.ch, spacing, f.baseline, *f.strikethrough, *f.underline), None)


def font(atlas, mapping, replacement, atlas_width, *numbers):
    return FontPart("", atlas, mapping, replacement, atlas_width, numbers, None)


def sheet_of(frame, fonts, slot, baselines=range(4)):
    """A sheet with an item for each font in each baseline: item 4 × f + b has font f and baseline b."""
    items = [ItemPart("", (0, 0), b"", slot, f, bytes(8), (0, baseline, 1, 100), None) for f in range(len(fonts)) for baseline in baselines]
    return assemble((*frame, 200), fonts, items)


# ---- settings and cases

STYLES = [bytes((text, 31, background, 130, underline, 66, strikethrough, 250))
          for text in (0, 1) for background in (0, 1) for underline in (0, 1, 2) for strikethrough in (0, 1, 2)]
# on the frame of 40 by 24, over each of its edges, off it, and where the second position passes the range of a place
PLACES = [(3, 5), (0, 0), (-7, 4), (34, 6), (2, -6), (5, 20), (-30, 9), (-400, 3), (39, 23), (32_760, 5), (-32_768, -32_768), (4, 32_767)]


def settings(styles, places):
    return b"".join(style + struct.pack("<ii", *place) for style in styles for place in places)


def line(item, text):
    return struct.pack("<BBH", LINE, item, len(text)) + text


def whitespace(item, width, step):
    return struct.pack("<BBII", WHITESPACE, item, width, step)


def block(sheet, chosen, cases):
    return struct.pack("<III", len(sheet), len(chosen), len(cases)) + sheet + chosen + cases


# an atlas that has two of the five glyphs listed, an underline far below and a strikethrough over it
ODD = font(bytes((37 * k + 13) % 256 for k in range(8)), "xyzäß".encode(), 1, 7, 3, 4, 0, 2, 5, 3, 6, 1)
REAL = [sample_font("hydrograph"), sample_font("greek"), sample_font("georgian"), ODD]
SPACED = [font(b"\x90\x60", b"AB", 1, 4, 2, 2, 1, 1, 0, 1, 3, 1), sample_font("hydrograph", spacing=2), sample_font("greek", spacing=5),
          sample_font("georgian", spacing=64)]
TEXTS = ["3.21 m ↑", "Στάθμη", "წყალი", "xäz߀"]
MORE = ["T °C\U0001f4a7²", "€", "", "\0y\U00010348"]


def cases_of(texts):
    return b"".join(line(4 * f + baseline, text.encode()) for f, text in enumerate(texts) for baseline in range(4))


def blocks():
    """Real fonts, which have spacing 0; the same and the paper's sample font with other spacings; and the smallest sheet that tells spacing 1 from 0."""
    every = settings(STYLES, PLACES)
    widths = b"".join(whitespace(item, *width) for item in range(16) for width in ((9, 2), (65_535, 13_107)))
    yield block(sheet_of((40, 24), REAL, 24), every, cases_of(TEXTS) + cases_of(MORE) + widths + whitespace(0, 65_536, 32_768))
    yield block(sheet_of((40, 24), SPACED, 8), settings(STYLES, PLACES[:4]), cases_of(["AB", "m.", "Στ", "წყ"]) + widths)
    smallest = font(b"", b"", 0, 0, 0, 1, 1, 0, 0, 0, 0, 0)
    yield block(sheet_of((1, 1), [smallest], 2, [0]), settings([bytes((0, 0, 1, 5, 0, 0, 0, 0))], [(0, 0)]), line(0, b"AB"))


# ---- what the paper says

def strange(pixels):
    return bytearray((k % 251 * 37 + 11) % 251 for k in range(pixels))


def checksum(total, data):
    for byte in data:
        total = (total * 257 + byte + 1) % 4_294_967_291
    return total


def in_range(*numbers):
    return all(-32_768 <= n <= 32_767 for n in numbers)


def draw(canvas, item, kind, what):
    """The next position and the replaced characters; None if the width is refused."""
    if kind == LINE:
        item = item._replace(text=what)
        return *model.draw_text(canvas, item), model.replaced(item)
    return (*model.draw_whitespace_of(canvas, item, what), 0) if what <= 65_535 else None


def draw_parts(canvas, item, kind, first, second):
    drawn = draw(canvas, item, kind, first)
    if drawn is None or not in_range(*drawn[:2]):
        return None
    behind = draw(canvas, item._replace(x=drawn[0], y=drawn[1]), kind, second)
    return behind and (*behind[:2], drawn[2] + behind[2])


def halves(kind, what, step):
    """A line cut before each character and at its end; a width cut at the multiples of the step."""
    if kind == LINE:
        text = what.decode()
        return [(text[:k].encode(), text[k:].encode()) for k in range(len(text) + 1)]
    return [(v, what - v) for v in range(0, what + 1, step)]


def tried(sheet, chosen, kind, number, what, step):
    """The line that the program writes for a case."""
    counts, replaced, total = {"same": 0, "different": 0, "refused": 0}, 0, 0
    width, height = model.number(sheet, 2, 2), model.number(sheet, 4, 2)
    for at in range(0, len(chosen), 16):
        b = bytearray(sheet)
        b[model.record(b, number) + 13:model.record(b, number) + 21] = chosen[at:at + 8]
        x, y = struct.unpack_from("<ii", chosen, at + 8)
        item = model.item_at(b, number)._replace(x=x, y=y)
        whole = model.Canvas(strange(width * height), width, height)
        drawn = draw(whole, item, kind, what)
        replaced, total = replaced + (drawn[2] if drawn else 0), checksum(total, whole.greys)
        for first, second in halves(kind, what, step):
            canvas = model.Canvas(strange(width * height), width, height)
            parts = draw_parts(canvas, item, kind, first, second)
            same = parts == drawn and canvas.greys == whole.greys
            counts["refused" if drawn is None or parts is None else "same" if same else "different"] += 1
    said = " ".join(f"{count} {word}" for word, count in counts.items())
    return f"{('line', 'whitespace')[kind]} {number}: {said}, replaced {replaced}, frames {total}"


def cases_in(cases):
    """Each case: its kind, its item, a line or a width, and a step."""
    at = 0
    while at < len(cases):
        kind, item = cases[at:at + 2]
        if kind == LINE:
            size = model.number(cases, at + 2, 2)
            yield kind, item, cases[at + 4:at + 4 + size], None
            at += 4 + size
        else:
            yield kind, item, *struct.unpack_from("<II", cases, at + 2)
            at += 10


def stored_cases(stdin):
    """Each case with its sheet and its settings."""
    at = 0
    while at < len(stdin):
        parts, end = [], at + 12
        for size in struct.unpack_from("<III", stdin, at):
            parts.append(stdin[end:end + size])
            end += size
        at = end
        yield from ((*parts[:2], *case) for case in cases_in(parts[2]))


def main():
    folder = os.path.join(ROOT, "crates", "joined_runs")
    stdin = b"".join(blocks())
    with open(os.path.join(folder, "stdin"), "wb") as file:
        file.write(stdin)
    with open(os.path.join(folder, "stdout"), "w", encoding="utf-8") as file:
        file.writelines(tried(*case) + "\n" for case in stored_cases(stdin))


if __name__ == "__main__":
    main()
