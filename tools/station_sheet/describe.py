"""A description of a sheet that is accepted: 'new' builds the same bytes from it."""
from .bitmap import BitmapFont, pixels
from .description import DECORATIONS, GREYS, UNUSED, FontPart, ItemPart
from .layout import ALIGNMENTS, BASELINES, HEIGHT_KINDS, font_of, header_of, item_of, run_length, spelled, unlisted


def describe(sheet, name):
    """The description in TOML, with the sheet's name in its first line."""
    header = header_of(sheet)
    parts = [f"# {name}: {len(sheet)} bytes, {header.fonts} fonts, {header.items} items.", "", "[frame]", f"width = {header.width}",
             f"height = {header.height}", f"paper = {header.paper}"]
    fonts = [font_part(sheet, number) for number in range(header.fonts)]
    for font in fonts:
        parts += ["", "[[font]]", f"name = {string(font.name)}", *font_lines(font)]
    for number in range(header.items):
        parts += ["", f"[[item]]  # {number}", *item_lines(item_part(sheet, number), fonts)]
    return "\n".join(parts) + "\n"


def font_part(sheet, number):
    font = font_of(sheet, number)
    atlas, mapping = sheet[font.atlas_at:font.atlas_at + font.atlas_length], sheet[font.mapping_at:font.mapping_at + font.mapping_length]
    return FontPart(str(number), atlas, mapping, font.replacement, font.atlas_width, tuple(font)[6:14], None)


def item_part(sheet, number):
    item = item_of(sheet, number)
    text = sheet[item.slot_at:item.slot_at + item.text_length]
    return ItemPart("", (item.x, item.y), text, item.slot_size, item.font, bytes(tuple(item)[6:14]), tuple(item)[14:18], None)


def string(text):
    """A TOML string: what does not print is escaped."""
    return '"' + "".join(escaped(c) for c in text) + '"'


def escaped(character):
    if character in '"\\':
        return "\\" + character
    if character in "\n\r\t":
        return {"\n": "\\n", "\r": "\\r", "\t": "\\t"}[character]
    if character.isprintable():
        return character
    return f"\\u{ord(character):04X}" if ord(character) < 0x10000 else f"\\U{ord(character):08X}"


# ---- fonts

def font_lines(font):
    bitmap, columns = as_bitmap(font)
    if bitmap is None:
        return atlas_lines(font)
    lines = [] if columns == bitmap.most_columns() else [f"columns = {columns}"]
    if bitmap.mapping() != font.mapping:
        lines.append(f"mapping = {string(font.mapping.decode('utf-8'))}")
    if bitmap.replacement_index() != font.replacement:
        lines.append(f"replacement = {font.replacement}")
    return [*lines, "bitmap = '''", bitmap.text() + "'''"]


def as_bitmap(font):
    """The font as bitmap text and its cells in a row, if its atlas is no more and no less than a cell for each listed character."""
    cw, ch = font.numbers[:2]
    if cw == 0 or ch == 0 or font.atlas_width == 0 or font.atlas_width % cw != 0:
        return None, 0
    columns, row = font.atlas_width // cw, (font.atlas_width + 7) // 8
    entries = list(spelled([ord(c) for c in font.mapping.decode("utf-8")]))
    count = sum(run_length(first, last) for _, first, last in entries)
    if len(font.atlas) != -(-count // columns) * ch * row:
        return None, 0
    characters = [c for _, first, last in entries for c in range(first, last + 1) if not 0xD800 <= c <= 0xDFFF]
    rows = [pixels(font.atlas[at:at + row]) for at in range(0, len(font.atlas), row)]
    bitmap = BitmapFont("")
    _, _, spacing, baseline, *decorations = font.numbers
    bitmap.words = {"cell": (cw, ch), "spacing": (spacing,), "baseline": (baseline,), "strikethrough": tuple(decorations[:2]),
                    "underline": tuple(decorations[2:])}
    for k, c in enumerate(characters):
        left, top = k % columns * cw, k // columns * ch
        bitmap.glyphs[c] = [line[left:left + cw] for line in rows[top:top + ch]]
    if len(bitmap.glyphs) != count or bitmap.atlas(columns)[1] != font.atlas:
        return None, 0
    if font.replacement < count:
        bitmap.replacement = characters[font.replacement]
    return bitmap, columns


def atlas_lines(font):
    """Any other font: its numbers, its mapping, and its atlas drawn whole."""
    cw, ch, spacing, baseline, *decorations = font.numbers
    lines = [f"cell = [{cw}, {ch}]", f"spacing = {spacing}", f"baseline = {baseline}", f"strikethrough = {decorations[:2]}",
             f"underline = {decorations[2:]}", f"replacement = {font.replacement}", f"mapping = {string(font.mapping.decode('utf-8'))}",
             f"atlas_width = {font.atlas_width}"]
    row = (font.atlas_width + 7) // 8
    whole = len(font.atlas) // row * row if row else 0
    if whole:
        lines += ["atlas = '''", *(atlas_row(font.atlas[at:at + row], font.atlas_width) for at in range(0, whole, row)), "'''"]
    if whole < len(font.atlas):
        lines.append(f'atlas_tail = "{font.atlas[whole:].hex(" ").upper()}"')
    return lines


def atlas_row(data, width):
    row = pixels(data)
    return row[:width] if "#" not in row[width:] else f"{row[:width]} {row[width:]}"


# ---- items

def item_lines(item, fonts):
    lines = [f"x = {item.place[0]}", f"y = {item.place[1]}"]
    if item.font != 0:
        lines.append(f"font = {string(fonts[item.font].name)}")
    for k, key in enumerate((*GREYS, *DECORATIONS)):
        mode, grey = item.style[2 * k:2 * k + 2]
        used = mode == (1 if key in GREYS else 2)
        if used:
            lines.append(f"{key} = {grey}")
        elif mode != 0:
            lines.append(f'{key} = "text colour"')
        if not used and grey != 0:
            lines.append(f"{UNUSED[key]} = {grey}")
    alignment, baseline, kind, height = item.layout
    if alignment != 0:
        lines.append(f'alignment = "{ALIGNMENTS[alignment]}"')
    if baseline != 0:
        lines.append(f'baseline = "{BASELINES[baseline].lower()}"')
    if (kind, height) != (HEIGHT_KINDS.index("percent"), 100):
        lines.append(f'line_height = "{height}%"' if kind else f"line_height = {height}")
    if unlisted(item.text, fonts[item.font].mapping):
        lines.append("missing_glyphs = true")
    text = item.text.decode("utf-8")
    split = text.split("\n")
    lines.append(f"text = {string(text)}" if len(split) == 1 else f"lines = [{', '.join(map(string, split))}]")
    if item.slot != len(item.text):
        lines.append(f"slot = {item.slot}")
    return lines
