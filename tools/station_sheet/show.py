"""A sheet's header, fonts and items, with the offset of each, and what a proved program measured of the items."""
from .layout import (ALIGNMENTS, BASELINES, HEADER_SIZE, HEIGHT_KINDS, code_point, font_of, font_record, header_of, item_of, item_record,
                     run_length, spelled, unlisted)

MOST_RUNS = 12


def show(sheet, refusal, measured):
    """The lines for a sheet, as far as its layout can be followed. Measured has a box, a position and a count for each item, or is None."""
    if len(sheet) < HEADER_SIZE:
        return []
    header = header_of(sheet)
    lines = [
        f"header at 0: edition {header.edition}, frame {header.width} by {header.height}, paper {header.paper}",
        f"    fonts {header.fonts} at {header.fonts_at}, items {header.items} at {header.items_at}, length {header.length}",
    ]
    if refusal is None or refusal.number > 5:
        for number in range(header.fonts):
            lines += font_lines(sheet, number)
        for number in range(header.items):
            lines += item_lines(sheet, header, number)
            if refusal is None:
                lines += unlisted_lines(sheet, item_of(sheet, number))
            if measured is not None:
                left, top, width, height, x, y, replaced = measured[number]
                lines.append(f"    measured box at ({left}, {top}), {width} by {height}; next position ({x}, {y}); {replaced} replaced")
    return lines


def font_lines(sheet, number):
    font = font_of(sheet, number)
    mapping = sheet[font.mapping_at:font.mapping_at + font.mapping_length]
    row = (font.atlas_width + 7) // 8
    rows = font.atlas_length // row if row else 0
    across = font.atlas_width // font.cw if font.cw else 0
    down = rows // font.ch if font.ch else 0
    return [
        f"font {number} at {font_record(number)}: cell {font.cw} by {font.ch}, spacing {font.s}, baseline {font.baseline}, "
        f"replacement index {font.replacement}",
        f"    strikethrough at {font.strikethrough_offset}, {font.strikethrough_height} high; "
        f"underline at {font.underline_offset}, {font.underline_height} high",
        f"    atlas at {font.atlas_at}: {font.atlas_length} bytes, {font.atlas_width} by {rows} pixels, {across} by {down} cells",
        f"    mapping at {font.mapping_at}: {font.mapping_length} bytes, {listed(mapping)}",
    ]


def listed(mapping):
    """The characters that a mapping lists, in short."""
    try:
        characters = [ord(c) for c in mapping.decode("utf-8")]
    except UnicodeDecodeError:
        return "ill-formed"
    total, runs = 0, []
    for _, first, last in spelled(characters):
        count = run_length(first, last)
        total += count
        if count and runs and first == runs[-1][1] + 1:
            runs[-1] = (runs[-1][0], last)
        elif count:
            runs.append((first, last))
    names = [code_point(first) if first == last else f"{code_point(first)} to {code_point(last)}" for first, last in runs[:MOST_RUNS]]
    more = f" and {len(runs) - MOST_RUNS} runs more" if len(runs) > MOST_RUNS else ""
    return f"{total} characters{': ' if names else ''}{', '.join(names)}{more}"


def item_lines(sheet, header, number):
    item = item_of(sheet, number)
    record = item_record(header.fonts, number)
    text = sheet[item.slot_at:item.slot_at + min(item.text_length, item.slot_size)]
    height = f"{item.height_value} {named(HEIGHT_KINDS, item.height_kind)}"
    return [
        f"item {number} at {record}: x {item.x}, y {item.y}, font {item.font}, {named(ALIGNMENTS, item.alignment)}, "
        f"{named(BASELINES, item.baseline)}, line height {height}",
        f"    style at {record + 13}: text {grey(item.text_mode, item.text_grey)}, background {grey(item.background_mode, item.background_grey)}, "
        f"underline {decoration(item.underline_mode, item.underline_grey)}, "
        f"strikethrough {decoration(item.strikethrough_mode, item.strikethrough_grey)}",
        f"    slot at {item.slot_at}: {item.slot_size} bytes, text {item.text_length} bytes: {quoted(text)}",
    ]


def unlisted_lines(sheet, item):
    """A line with the characters of an item that its font does not list, each once; none if all are listed."""
    font = font_of(sheet, item.font)
    mapping = sheet[font.mapping_at:font.mapping_at + font.mapping_length]
    found = list(dict.fromkeys(unlisted(sheet[item.slot_at:item.slot_at + item.text_length], mapping)))
    more = f" and {len(found) - MOST_RUNS} more" if len(found) > MOST_RUNS else ""
    return [f"    not listed: {', '.join(code_point(ord(c)) for c in found[:MOST_RUNS])}{more}"] if found else []


def named(names, code):
    return names[code] if code < len(names) else f"code {code}"


def grey(mode, value):
    return {0: "none", 1: str(value)}.get(mode, f"mode {mode}")


def decoration(mode, value):
    return {0: "none", 1: "text colour", 2: str(value)}.get(mode, f"mode {mode}")


def quoted(text):
    """A text in quotes: a quote or a backslash after a backslash, another byte that is no printable character as in \\n or \\x80."""
    return '"' + "".join(escaped(c) for c in text.decode("utf-8", "surrogateescape")) + '"'


def escaped(character):
    if character in '"\\':
        return "\\" + character
    if character.isprintable():
        return character
    return character.encode("utf-8", "surrogateescape").decode("latin-1").encode("unicode_escape").decode("ascii")
