"""Lists of edits: read from TOML, or from the words of a command, and written as the entries that station_edits takes; tools/README.md lists the keys."""
import re
import struct
from collections import namedtuple

from . import Problem, named
from .describe import font_part, item_part
from .description import (DECORATIONS, FIRST_PLACE, GREYS, LAST_PLACE, UNUSED, Table, item_text, read_description, read_style, read_toml, sheet_of,
                          style_bytes)
from .explain import ill_formed, sequence
from .files import input_name
from .layout import header_of, item_of
from .programs import MOST_LIST, made_list
from .toml_lines import Lines

TEXT, PLACE, STYLE = range(3)
DATA_KEYS = ("text", "lines", "place", "style")
PAINT_KEYS = {*GREYS, *DECORATIONS, *UNUSED.values()}
ENTRY = struct.Struct("<BBH")
XY = struct.Struct("<ii")
MOST_ITEM, MOST_DATA = 255, 65_535
FIRST_NUMBER, LAST_NUMBER = -2**31, 2**31 - 1

# What an entry stores, and the table that says it.
Edit = namedtuple("Edit", "kind item data table")


def read_list(files, path, names):
    """The edits of a file in TOML."""
    top = read_toml(files, path, "list of edits", {"edit"})
    with named(input_name(path)):
        return [read_edit(table, names) for table in top.tables("edit", "edit", {"item", *DATA_KEYS})]


def edit_of_words(item, words, names):
    """The edit that a command says: an item, then 'text' and the text, 'place' and two numbers, or 'style' and its keys with their values."""
    kind, *values = words
    if (kind, len(values)) == ("text", 1):
        value = values[0]
    elif (kind, len(values)) == ("place", 2):
        value = [number_or_word(word) for word in values]
    elif kind == "style":
        value = style_of_words(values)
    else:
        raise Problem("an edit is 'text TEXT', 'place X Y' or 'style KEY=VALUE ..'", 2)
    try:
        return read_edit(Table({"item": number_or_word(item), kind: value}, "the edit", {"item", kind}, Lines(""), ()), names)
    except Problem as problem:
        raise Problem(str(problem), 2) from None


def style_of_words(words):
    style = {}
    for word in words:
        key, equals, value = word.partition("=")
        if not equals or key in style:
            raise Problem(f"'{word}': a style is KEY=VALUE .., each key once", 2)
        style[key] = number_or_word(value)
    return style


def number_or_word(word):
    return int(word) if re.fullmatch(r"-?[0-9]{1,4000}", word) else word


def read_edit(table, names):
    """The edit of a table: its item, and one of a text, a place and a style."""
    if sum(key in table for key in DATA_KEYS) != 1:
        raise table.problem(None, f"an edit has one of {', '.join(DATA_KEYS)}")
    item = item_number(table, names)
    if "place" in table:
        return Edit(PLACE, item, XY.pack(*table.pair("place", LAST_NUMBER, low=FIRST_NUMBER)), table)
    if "style" in table:
        style = Table(table.entries["style"], f"{table.name}: style", PAINT_KEYS, table.lines, (*table.path, "style"))
        return Edit(STYLE, item, style_bytes(read_style(style, [])), table)
    text = item_text(table)
    if len(text) > MOST_DATA:
        raise table.problem("lines" if "lines" in table else "text", f"the text has {len(text)} bytes, and an entry of a list takes at most {MOST_DATA}")
    return Edit(TEXT, item, text, table)


# ---- the names of items

def item_number(table, names):
    """The number of a table's item, which is given, or has this name among those of the sheet's items."""
    name = table.entries.get("item")
    if not isinstance(name, str):
        return table.number("item", 0, MOST_ITEM)
    if names is None:
        raise table.problem("item", f"'{name}' is no number of an item; with '--names DESCRIPTION.toml' an item goes by its name")
    found = [number for number, other in enumerate(names) if name and other == name]
    if len(found) != 1:
        raise table.problem("item", f"there is no item '{name}'" if not found else f"the name '{name}' is that of {len(found)} items")
    return found[0]


def item_names(files, path, sheet):
    """The names of a sheet's items by its description, '' for those without one; None without a description."""
    if path is None:
        return None
    description = read_description(files, path)
    with named(input_name(path)):
        if kept(sheet_of(description)) != kept(sheet):
            raise Problem("it describes another sheet: frame, fonts, or slots, fonts and alignments of items differ")
    return [item.name for item in description.items]


def kept(sheet):
    """What no edit of a sheet changes: its header and fonts, and of each item all but place, text and style."""
    header = header_of(sheet)
    return (header, [font_part(sheet, number) for number in range(header.fonts)],
            [item_part(sheet, number)._replace(place=None, text=None, style=None) for number in range(header.items)])


# ---- entries

def make_edits(sheet, edits):
    """The reply of station_edits to edits on a sheet, none of which is refused, and the edited sheet."""
    reply, edited = made_list(sheet, entries_of(edits), len(edits))
    if reply.code != 0:
        edit = edits[reply.made]
        number, cause = refusal_of(edit, sheet)
        if number != reply.code:
            tool = f"the tool finds {number}: {cause}" if number else "the tool finds no fault in it"
            raise Problem(f"{edit.table.where()}: target/bin/station_edits refuses it with {reply.code}, and {tool}; one of the two is wrong", 2)
        raise edit.table.problem(None, f"refused with {number}: {cause}; the sheet stays as it is")
    return reply, edited


def entries_of(edits):
    """The list's bytes: of each edit its kind, its item's number, the length of its data, and the data."""
    entries = b"".join(ENTRY.pack(edit.kind, edit.item, len(edit.data)) + edit.data for edit in edits)
    if len(entries) > MOST_LIST:
        raise Problem(f"the list takes {len(entries)} bytes, and station_edits {MOST_LIST}: make the edits in several lists")
    return entries


def refusal_of(edit, sheet):
    """The number and the cause of an edit's refusal on a sheet; None and no cause for one that is made."""
    items = header_of(sheet).items
    if edit.item >= items:
        return 12, f"there is no item {edit.item}: the sheet's items are {items}, numbered from 0"
    if edit.kind == TEXT:
        slot = item_of(sheet, edit.item).slot_size
        if len(edit.data) > slot:
            return 13, f"the text has {len(edit.data)} bytes, and item {edit.item}'s slot {slot}"
        fault = ill_formed(edit.data)
        if fault is not None:
            return 14, f"the text has an ill-formed sequence, {sequence(edit.data, fault)}"
    if edit.kind == PLACE:
        x, y = XY.unpack(edit.data)
        if not FIRST_PLACE <= min(x, y) <= max(x, y) <= LAST_PLACE:
            return 15, f"the place ({x}, {y}) is outside {FIRST_PLACE} to {LAST_PLACE}"
    return None, ""
