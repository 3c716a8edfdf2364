"""What differs between two sheets that are accepted: by font and item, and by field. Offsets follow from the rest, and are left out."""
from .describe import as_bitmap, font_part, item_part
from .layout import ALIGNMENTS, BASELINES, HEIGHT_KINDS, code_point, header_of
from .show import decoration, grey, listed, quoted

NUMBERS = ("cell width", "cell height", "spacing", "baseline", "strikethrough offset", "strikethrough height", "underline offset",
           "underline height")
STYLES = (("text grey", grey), ("background grey", grey), ("underline", decoration), ("strikethrough", decoration))
MOST_GLYPHS = 8


def differences(one, other):
    """A line for each difference."""
    headers = header_of(one), header_of(other)
    for field, name in (("width", "frame width"), ("height", "frame height"), ("paper", "paper"), ("fonts", "fonts"), ("items", "items")):
        yield from changed(name, *(getattr(header, field) for header in headers))
    for number in range(max(header.fonts for header in headers)):
        if lone(number, "font", *(header.fonts for header in headers)):
            yield lone(number, "font", *(header.fonts for header in headers))
        else:
            yield from font_differences(number, font_part(one, number), font_part(other, number))
    for number in range(max(header.items for header in headers)):
        if lone(number, "item", *(header.items for header in headers)):
            yield lone(number, "item", *(header.items for header in headers))
        else:
            yield from item_differences(number, item_part(one, number), item_part(other, number))


def lone(number, kind, one, other):
    """What is said of a font or an item that one sheet alone has."""
    if number >= one:
        return f"{kind} {number}: in the second only"
    return f"{kind} {number}: in the first only" if number >= other else ""


def changed(name, one, other):
    if one != other:
        yield f"{name}: {one} -> {other}"


def font_differences(number, one, other):
    for name, a, b in zip(NUMBERS, one.numbers, other.numbers):
        yield from changed(f"font {number}: {name}", a, b)
    yield from changed(f"font {number}: replacement index", one.replacement, other.replacement)
    yield from changed(f"font {number}: atlas width", one.atlas_width, other.atlas_width)
    if one.mapping != other.mapping:
        names = listed(one.mapping), listed(other.mapping)
        yield f"font {number}: mapping: {names[0]} -> {names[1]}" + (" (in other bytes)" if names[0] == names[1] else "")
    if one.atlas != other.atlas:
        yield f"font {number}: atlas: {atlas_difference(one, other)}"


def atlas_difference(one, other):
    bitmaps = as_bitmap(one)[0], as_bitmap(other)[0]
    if None not in bitmaps and list(bitmaps[0].glyphs) == list(bitmaps[1].glyphs) and one.numbers == other.numbers:
        glyphs = [code_point(c) for c, rows in bitmaps[0].glyphs.items() if bitmaps[1].glyphs[c] != rows]
        if glyphs:
            more = f" and {len(glyphs) - MOST_GLYPHS} more" if len(glyphs) > MOST_GLYPHS else ""
            return f"glyphs {', '.join(glyphs[:MOST_GLYPHS])}{more} differ"
    if len(one.atlas) != len(other.atlas):
        return f"{len(one.atlas)} bytes -> {len(other.atlas)} bytes"
    apart = [k for k, (a, b) in enumerate(zip(one.atlas, other.atlas)) if a != b]
    return f"{len(apart)} of {len(one.atlas)} bytes differ, the first is byte {apart[0]} of the atlas"


def item_differences(number, one, other):
    name = f"item {number}"
    for k, axis in enumerate("xy"):
        yield from changed(f"{name}: {axis}", one.place[k], other.place[k])
    yield from changed(f"{name}: font", one.font, other.font)
    for k, (part, said) in enumerate(STYLES):
        modes = one.style[2 * k:2 * k + 2], other.style[2 * k:2 * k + 2]
        words = [said(*mode) for mode in modes]
        yield from changed(f"{name}: {part}", *words)
        if modes[0] != modes[1] and words[0] == words[1]:
            yield f"{name}: unused {part.removesuffix(' grey')} grey: {modes[0][1]} -> {modes[1][1]}"
    for k, (field, names) in enumerate((("alignment", ALIGNMENTS), ("baseline", BASELINES))):
        yield from changed(f"{name}: {field}", names[one.layout[k]], names[other.layout[k]])
    heights = [f"{value} {HEIGHT_KINDS[kind]}" for kind, value in (one.layout[2:], other.layout[2:])]
    yield from changed(f"{name}: line height", *heights)
    yield from changed(f"{name}: text", quoted(one.text), quoted(other.text))
    yield from changed(f"{name}: slot", one.slot, other.slot)
