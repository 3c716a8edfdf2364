"""A C header for the host of one sheet: its frame's size, the numbers of its items and fonts by name, and the sizes of their slots."""
import re
from pathlib import PurePath

from . import Problem, one_line


def macro_name(name):
    """A name as part of a macro: capitals, figures and single underscores, nothing else."""
    return re.sub(r"[^A-Z0-9]+", "_", name.upper()).strip("_") if name.isascii() else ""


def prefix_of(path):
    """What the names in the header of this path begin with; the library's beginning is not taken."""
    word = macro_name(PurePath(path).stem) if path != "-" else ""
    if f"{word}_".startswith("STATION_"):
        raise Problem(f"the header's names would begin with STATION_, as the library's do: take another file name than {PurePath(path).name}", 2)
    return word if word and not word[0].isdigit() else f"SHEET_{word}".rstrip("_")


def c_header(description, sheet, path, source):
    """The header's text, for its file's path and the name of the description."""
    prefix = prefix_of(path if path != "-" else source)
    width, height, _ = description.frame
    lines = [
        f"/* Made by 'tools/sheet new --header' from {comment(PurePath(source).name)}: the numbers of this one sheet. */",
        f"#ifndef {prefix}_H", f"#define {prefix}_H", "",
        "/* The frame's width and height, the sheet's length in bytes, and its numbers of fonts and items. */",
        f"#define {prefix}_WIDTH {width}", f"#define {prefix}_HEIGHT {height}", f"#define {prefix}_LENGTH {len(sheet)}",
        f"#define {prefix}_FONTS {len(description.fonts)}", f"#define {prefix}_ITEMS {len(description.items)}",
    ]
    fonts = [(number, font) for number, font in enumerate(description.fonts) if not font.name.isdecimal()]
    if fonts:
        lines += ["", "/* Fonts. */"]
        lines += [f"#define {prefix}_FONT_{word} {number}" for number, word in macros(fonts, "font")]
    items = [(number, item) for number, item in enumerate(description.items) if item.name]
    if items:
        lines += ["", "/* Items, and the bytes of their slots: the most that a new text may have. */"]
    for number, word in macros(items, "item"):
        lines += [f"#define {prefix}_ITEM_{word} {number}", f"#define {prefix}_SLOT_{word} {description.items[number].slot}"]
    return "\n".join([*lines, "", "#endif", ""])


def comment(name):
    """A file's name in a comment."""
    return "standard input" if name == "-" else one_line(name).replace("*/", "* /")


def macros(named, kind):
    """The number and the macro's part of each font's or item's name; names that give no part, or the same one, are a fault."""
    seen = {}
    for number, part in named:
        word = macro_name(part.name)
        if not word:
            raise part.table.problem("name", f"'{part.name}' gives no name for the header; one in ASCII letters and figures does")
        if word in seen:
            raise part.table.problem("name", f"'{part.name}' gives the name {word} in the header, as {kind} {seen[word]} does")
        seen[word] = number
        yield number, word
