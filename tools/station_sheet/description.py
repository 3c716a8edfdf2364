"""Sheets from readable descriptions in TOML; tools/README.md lists the keys."""
import re
import tomllib
from collections import namedtuple
from pathlib import Path

from . import Problem, named
from .bdf import read_bdf
from .bitmap import bits, parse_font
from .explain import explain, header_refusals
from .files import MOST_TEXT, input_name
from .layout import (ALIGNMENTS, BASELINES, EDITION, FONT_FORM, FONT_SIZE, HEADER_FORM, HEADER_SIZE, HEIGHT_KINDS, ITEM_FORM, ITEM_SIZE,
                     MOST_ATLAS_WIDTH, MOST_CELL, MOST_FONTS, MOST_HEIGHT, MOST_ITEMS, MOST_SIDE, MOST_SLOT, Header, code_point, font_of,
                     header_of, unlisted)
from .toml_lines import MOST_PARTS, Lines, long_key

GREYS = ("text_grey", "background_grey")
DECORATIONS = ("underline", "strikethrough")
UNUSED = {**{key: f"unused_{key}" for key in GREYS}, **{key: f"unused_{key}_grey" for key in DECORATIONS}}
STYLE_KEYS = {"font", *GREYS, *DECORATIONS, *UNUSED.values(), "alignment", "baseline", "line_height"}
ITEM_KEYS = STYLE_KEYS | {"name", "style", "x", "y", "text", "lines", "slot", "missing_glyphs"}
BITMAP_KEYS = {"name", "file", "bitmap", "columns", "mapping", "replacement"}
BDF_KEYS = {"name", "file", "replacement"}
ATLAS_KEYS = {"name", "cell", "spacing", "baseline", "strikethrough", "underline", "replacement", "mapping", "atlas_width", "atlas", "atlas_tail"}
WIDEST_FIELD = 65_535
FIRST_PLACE, LAST_PLACE = -32_768, 32_767

# What a description says, and the lines of its text. A font's numbers are those of its record after the atlas's width; an item's layout is
# its alignment, baseline, height kind and height value. The table is None for what was read from a sheet.
Description = namedtuple("Description", "frame fonts items warnings lines")
FontPart = namedtuple("FontPart", "name atlas mapping replacement atlas_width numbers table")
ItemPart = namedtuple("ItemPart", "name place text slot font style layout table")


class Table:
    """A table of the description, with the name that messages give it, and the path by which its line is found."""

    def __init__(self, entries, name, keys, lines, path):
        self.entries, self.name, self.lines, self.path = entries, name, lines, path
        if not isinstance(entries, dict):
            raise Problem(f"{self.where()} must be a table")
        for key in entries:
            if key not in keys:
                raise self.problem(key, f"'{key}' is no key here; the keys are {', '.join(sorted(keys))}")

    def where(self, key=None):
        line = self.lines.of(self.path if key is None else (*self.path, key))
        return f"line {line}: {self.name}" if line is not None else self.name

    def problem(self, key, message):
        return Problem(f"{self.where(key)}: {message}")

    def __contains__(self, key):
        return key in self.entries

    def number(self, key, low, high, default=None):
        return self.whole(key, self.entries.get(key, default), low, high)

    def whole(self, key, value, low, high):
        if value is None:
            raise self.problem(key, f"'{key}' is missing")
        if not isinstance(value, int) or isinstance(value, bool) or not low <= value <= high:
            raise self.problem(key, f"'{key}' must be a whole number from {low} to {high}")
        return value

    def pair(self, key, high, default=None, low=0):
        value = self.entries.get(key, default)
        if value is None:
            raise self.problem(key, f"'{key}' is missing")
        if not isinstance(value, (list, tuple)) or len(value) != 2:
            raise self.problem(key, f"'{key}' is a list of two numbers")
        return tuple(self.whole(key, part, low, high) for part in value)

    def string(self, key, default=None):
        value = self.entries.get(key, default)
        if value is None:
            raise self.problem(key, f"'{key}' is missing")
        if not isinstance(value, str):
            raise self.problem(key, f"'{key}' must be a string")
        return value

    def choice(self, key, among):
        value = self.string(key).lower()
        lowered = [word.lower() for word in among]
        if value not in lowered:
            raise self.problem(key, f"'{key}' is one of {', '.join(lowered)}")
        return lowered.index(value)

    def tables(self, key, name, keys):
        """The tables of [[key]], each with its number in its name."""
        value = self.entries.get(key, [])
        if not isinstance(value, list):
            raise self.problem(key, f"write '{key}' as [[{key}]]")
        return [Table(entries, f"{name} {number}", keys, self.lines, (key, number)) for number, entries in enumerate(value)]


def read_toml(files, path, kind, keys):
    """The table of a whole file in TOML, whose kind messages name."""
    name = input_name(path)
    text = files.read_text(path)
    if (line := long_key(text)) is not None:
        raise Problem(f"{name}: line {line}: no {kind}: a key has more than {MOST_PARTS} parts")
    try:
        entries = tomllib.loads(text)
    except tomllib.TOMLDecodeError as error:
        raise Problem(f"{name}: no TOML: {error}") from None
    except RecursionError:
        raise Problem(f"{name}: no {kind}: its lists or tables are nested too deeply") from None
    except ValueError:
        digits = re.search(r"[0-9_]{4000,}", text)
        line = f"line {text.count(chr(10), 0, digits.start()) + 1}: " if digits else ""
        raise Problem(f"{name}: {line}a number has too many digits") from None
    with named(name):
        return Table(entries, f"the {kind}", keys, Lines(text), ())


def read_description(files, path):
    """The parts of a description."""
    top = read_toml(files, path, "description", {"frame", "font", "style", "item"})
    with named(input_name(path)):
        return read_parts(top, files, Path(path).parent if path != "-" else Path())


def read_parts(top, files, folder):
    warnings = []
    if "frame" not in top:
        raise Problem("[frame] is missing, with width, height and paper")
    frame = Table(top.entries["frame"], "frame", {"width", "height", "paper"}, top.lines, ("frame",))
    size = frame.number("width", 1, MOST_SIDE), frame.number("height", 1, MOST_SIDE), frame.number("paper", 0, 255)
    fonts = [read_font(table, files, folder, warnings) for table in top.tables("font", "font", BITMAP_KEYS | ATLAS_KEYS)]
    names = [font.name for font in fonts]
    warnings += [f"{fonts[k].table.where('name')}: the name '{name}' is that of font {names.index(name)}, which items with this name get"
                 for k, name in enumerate(names) if names.index(name) != k]
    if not isinstance(top.entries.get("style", {}), dict):
        raise top.problem("style", "write a style as [style.NAME]")
    styles = {name: read_style(Table(entries, f"style '{name}'", STYLE_KEYS, top.lines, ("style", name)), names)
              for name, entries in top.entries.get("style", {}).items()}
    items = [read_item(table, fonts, styles) for table in top.tables("item", "item", ITEM_KEYS)]
    warnings += same_names(items)
    return Description(size, fonts, items, warnings, top.lines)


def same_names(items):
    first = {}
    for number, item in enumerate(items):
        if item.name and first.setdefault(item.name, number) != number:
            yield f"{item.table.where('name')}: the name is also that of item {first[item.name]}"


# ---- fonts

def read_font(table, files, folder, warnings):
    """A font: bitmap text in a file or in the description, a BDF file, or an atlas with its mapping."""
    if "atlas_width" in table:
        return read_atlas_font(Table(table.entries, table.name, ATLAS_KEYS, table.lines, table.path))
    Table(table.entries, table.name, BITMAP_KEYS, table.lines, table.path)
    if "file" in table and "bitmap" in table:
        raise table.problem("bitmap", "'bitmap' stands in the place of 'file'")
    if "bitmap" in table:
        font = parse_font(table.string("bitmap"), f"{table.where('bitmap')}: bitmap")
    else:
        path = folder / table.string("file")
        if path.suffix.lower() == ".bdf":
            return read_bdf_font(Table(table.entries, table.name, BDF_KEYS, table.lines, table.path), files, path)
        try:
            text = files.read_text(path)
        except Problem as problem:
            raise Problem(f"{table.where('file')}: {problem}", problem.status) from None
        font = parse_font(text, str(path))
    warnings += font.warnings
    columns = table.number("columns", 1, MOST_ATLAS_WIDTH, font.most_columns())
    if columns * font.words["cell"][0] > MOST_ATLAS_WIDTH:
        raise table.problem("columns", f"{columns} columns make an atlas of {columns * font.words['cell'][0]}, above {MOST_ATLAS_WIDTH}")
    width, atlas = font.atlas(columns)
    words = font.words
    numbers = (*words["cell"], *words["spacing"], *words["baseline"], *words["strikethrough"], *words["underline"])
    replacement = table.entries.get("replacement", font.replacement_index())
    if "replacement" not in table and replacement > WIDEST_FIELD:
        raise table.problem("bitmap" if "bitmap" in table else "file",
                            f"the replacement's index is {replacement}, above {WIDEST_FIELD}: the font needs a replacement among its first glyphs")
    replacement = table.whole("replacement", replacement, 0, WIDEST_FIELD)
    mapping = table.string("mapping").encode("utf-8") if "mapping" in table else font.mapping()
    return finished_font(table, FontPart(table.string("name", str(table.path[1])), atlas, mapping, replacement, width, numbers, table))


def read_bdf_font(table, files, path):
    """A font that read_bdf makes of a BDF file; its replacement index is 0 if none is given."""
    try:
        data = files.read(path, MOST_TEXT)
    except Problem as problem:
        raise Problem(f"{table.where('file')}: {problem}", problem.status) from None
    if len(data) > MOST_TEXT:
        raise Problem(f"{path}: longer than {MOST_TEXT} bytes, which is no font for a sheet")
    record, atlas, mapping = read_bdf(data, str(path))
    replacement = table.number("replacement", 0, WIDEST_FIELD, record.replacement)
    return FontPart(table.string("name", str(table.path[1])), atlas, mapping, replacement, record.atlas_width, tuple(record)[6:14], table)


def read_atlas_font(table):
    """A font whose atlas is drawn whole: rows of '.' and '#', spare bits behind a blank, and bytes that are no whole row."""
    width = table.number("atlas_width", 0, MOST_ATLAS_WIDTH)
    spare = -width % 8
    data = []
    rows = table.string("atlas", "").strip("\n")
    for number, row in enumerate(rows.split("\n") if rows else [], 1):
        seen, _, rest = row.partition(" ")
        if width == 0 or len(seen) != width or len(rest) not in (0, spare) or set(seen + rest) - set(".#"):
            raise table.problem("atlas", f"row {number} of 'atlas' needs {width} of '.' and '#'" +
                                (f", or these, a blank and {spare} spare ones" if spare else ""))
        data.append(bits(seen + rest))
    tail = table.string("atlas_tail", "")
    if not re.fullmatch(r"\s*(?:[0-9A-Fa-f]{2}\s*)*", tail):
        raise table.problem("atlas_tail", "'atlas_tail' has bytes of two hexadecimal digits each")
    cell = table.pair("cell", MOST_CELL)
    numbers = (*cell, table.number("spacing", 0, MOST_CELL, 0), table.number("baseline", 0, 255, 0), *table.pair("strikethrough", 255, (0, 0)),
               *table.pair("underline", 255, (0, 0)))
    part = FontPart(table.string("name", str(table.path[1])), b"".join(data) + bytes.fromhex(tail), table.string("mapping").encode("utf-8"),
                    table.number("replacement", 0, WIDEST_FIELD), width, numbers, table)
    return finished_font(table, part)


def finished_font(table, font):
    if len(font.mapping) > WIDEST_FIELD:
        raise table.problem("mapping", f"the mapping has {len(font.mapping)} bytes, above {WIDEST_FIELD}")
    return font


# ---- styles and items

def read_style(table, fonts):
    """What a style or an item says of the keys that both may have; what it does not say is not there."""
    said = {}
    if "font" in table:
        name = table.string("font")
        if name not in fonts:
            raise table.problem("font", f"there is no font '{name}'")
        said["font"] = fonts.index(name)
    for key in (*GREYS, *UNUSED.values()):
        if key in table:
            said[key] = table.number(key, 0, 255)
    for key in DECORATIONS:
        value = table.entries.get(key)
        if isinstance(value, str) and value != "text colour":
            raise table.problem(key, f"'{key}' is a grey or \"text colour\"")
        if value is not None:
            said[key] = value if isinstance(value, str) else table.number(key, 0, 255)
    for key, among in (("alignment", ALIGNMENTS), ("baseline", BASELINES)):
        if key in table:
            said[key] = table.choice(key, among)
    if "line_height" in table:
        said["line_height"] = line_height(table)
    refuse_both(table, said)
    return said


def refuse_both(table, said):
    """Refuses a grey that is set, and stored as one that is not used as well."""
    for key, unused in UNUSED.items():
        if unused in said and isinstance(said.get(key), int):
            raise table.problem(unused if unused in table else key, f"'{unused}' is for a grey that is not used, and '{key}' is set")


def line_height(table):
    """The height's kind and value."""
    value = table.entries["line_height"]
    if isinstance(value, str):
        percent = re.fullmatch(r"([0-9]{1,6})%", value)
        if percent is None:
            raise table.problem("line_height", "'line_height' is a number of pixels or a string as \"150%\"")
        return HEIGHT_KINDS.index("percent"), table.whole("line_height", int(percent[1]), 0, MOST_HEIGHT)
    return HEIGHT_KINDS.index("pixels"), table.whole("line_height", value, 0, MOST_HEIGHT)


def read_item(table, fonts, styles):
    if "name" in table:
        table.name += f" ({table.string('name')})"
    style = table.string("style", "")
    if "style" in table and style not in styles:
        raise table.problem("style", f"there is no style '{style}'")
    said = {**styles.get(style, {}), **read_style(table, [font.name for font in fonts])}
    refuse_both(table, said)
    text = item_text(table)
    slot = table.number("slot", 0, MOST_SLOT, min(len(text), MOST_SLOT))
    if len(text) > slot:
        raise table.problem("slot", f"the text has {len(text)} bytes, and its slot {slot}")
    if not fonts:
        raise table.problem(None, "an item needs a font, and the description has none")
    font = said.get("font", 0)
    if not isinstance(table.entries.get("missing_glyphs", False), bool):
        raise table.problem("missing_glyphs", "'missing_glyphs' is true or false")
    missing = unlisted(text, fonts[font].mapping)
    if missing and not table.entries.get("missing_glyphs"):
        raise table.problem("lines" if "lines" in table else "text", f"font '{fonts[font].name}' has no glyph for {code_point(ord(missing[0]))} "
                                                                     f"({missing[0]!r}); with 'missing_glyphs = true' its replacement is taken")
    place = table.number("x", FIRST_PLACE, LAST_PLACE), table.number("y", FIRST_PLACE, LAST_PLACE)
    layout = said.get("alignment", 0), said.get("baseline", 0), *said.get("line_height", (HEIGHT_KINDS.index("percent"), 100))
    return ItemPart(table.string("name", ""), place, text, slot, font, style_bytes(said), layout, table)


def item_text(table):
    """The bytes of 'text' or 'lines'; those that were no characters in the words of a command are as they were."""
    if "lines" in table:
        lines = table.entries["lines"]
        if "text" in table or not isinstance(lines, list) or not all(isinstance(line, str) for line in lines):
            raise table.problem("lines", "'lines' is a list of strings, and stands in the place of 'text'")
        return "\n".join(lines).encode("utf-8")
    return table.string("text").encode("utf-8", "surrogateescape")


def style_bytes(said):
    """Bytes 13 to 20 of an item: text, background, underline and strikethrough, each a mode and a grey."""
    data = []
    for key in (*GREYS, *DECORATIONS):
        value = said.get(key)
        if isinstance(value, int):
            data += [1 if key in GREYS else 2, value]
        else:
            data += [0 if value is None else 1, said.get(UNUSED[key], 0)]
    return bytes(data)


# ---- the sheet

def sheet_of(description):
    """The sheet's bytes."""
    header = Header(EDITION, *description.frame, len(description.fonts), len(description.items), 0, 0, 0, 0)
    refusal, sheet = next(header_refusals(header), None), b""
    if refusal is None:
        sheet = assemble(description.frame, description.fonts, description.items)
        refusal = explain(sheet)
    if refusal is not None:
        line = description.lines.of(blamed_path(sheet, refusal))
        raise Problem(f"{f'line {line}: ' if line else ''}the sheet would be refused with {refusal.number}: {refusal.cause}")
    return sheet


def blamed_path(sheet, refusal):
    """The path of what a refusal is about; of the sheet as a whole it is empty."""
    if refusal.number == 3:
        return "frame", "width"
    if refusal.number == 4:
        return ("font", MOST_FONTS) if refusal.byte == 7 else ("item", MOST_ITEMS)
    if refusal.number == 8:
        fonts = [font_of(sheet, number) for number in range(header_of(sheet).fonts)]
        return "font", next(k for k, font in enumerate(fonts) if 0 <= refusal.byte - font.mapping_at < font.mapping_length), "mapping"
    return ()


def assemble(frame, fonts, items):
    """Header, records, then each font's atlas and mapping and each item's slot, without gaps."""
    at = HEADER_SIZE + FONT_SIZE * len(fonts) + ITEM_SIZE * len(items)
    records, pieces = [], []
    for font in fonts:
        records.append(FONT_FORM.pack(at, len(font.atlas), at + len(font.atlas), len(font.mapping), font.replacement, font.atlas_width, *font.numbers, 0))
        pieces += [font.atlas, font.mapping]
        at += len(font.atlas) + len(font.mapping)
    for item in items:
        records.append(ITEM_FORM.pack(*item.place, at, item.slot, len(item.text), item.font, *item.style, *item.layout, 0))
        pieces.append(item.text.ljust(item.slot, b"\0"))
        at += item.slot
    header = HEADER_FORM.pack(EDITION, *frame, len(fonts), len(items), 0, HEADER_SIZE, HEADER_SIZE + FONT_SIZE * len(fonts), at)
    return b"".join([header, *records, *pieces])
