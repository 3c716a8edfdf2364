"""Tests of 'tools/sheet describe', 'diff' and 'new --header': what is described builds the same bytes, and what differs is told."""
import random
import re

import explained
from tool_runs import ROOT, SAMPLES, Run, expect_error, same, sheet_program, sheet_tool
from station_sheet import Problem, layout
from station_sheet.describe import describe
from station_sheet.description import FontPart, assemble, read_description, sheet_of
from station_sheet.difference import differences
from station_sheet.explain import explain
from station_sheet.files import Files

SEED = 4127
CHANGED = 400
PAIRS = 4_000


class Text(Files):
    """Files of one text, so that nothing is written."""

    def __init__(self, text):
        super().__init__()
        self.text = text

    def read_text(self, path):
        return self.text


def built_again(sheet):
    return sheet_of(read_description(Text(describe(sheet, "sheet")), "-"))


def accepted_sheets():
    """The samples, and the stored sheets that are accepted."""
    samples = [path.with_suffix(".sheet").read_bytes() for path in SAMPLES]
    return samples + [sheet for sheet in explained.stored() if explain(sheet) is None]


def changed_sheets(count):
    """Sheets with random changes that are accepted all the same: odd atlases, spare bits, greys that are not used."""
    chance, sheets = random.Random(SEED), accepted_sheets()
    changed = []
    while len(changed) < count:
        sheet = explained.damaged(chance.choice(sheets + changed), chance)
        if explain(sheet) is None:
            changed.append(sheet)
    return changed


def test_describe_samples(folder):
    """By the program: on standard output, and in a file; from standard input too."""
    for path in SAMPLES:
        sheet, toml, again = path.with_suffix(".sheet"), folder / "a.toml", folder / "a.sheet"
        described = sheet_program("describe", sheet)
        same(f"describe {sheet.name}: status and errors", (described.status, described.err), (0, ""))
        same("from standard input", sheet_program("new", "-", "-", given=described.out).out, sheet.read_bytes())
        same("describe into a file", sheet_tool("describe", sheet, toml), Run(0, "", ""))
        same("both", toml.read_bytes(), described.out)
        same("new", sheet_tool("new", toml, again).status, 0)
        same(f"{sheet.name} built again", again.read_bytes() == sheet.read_bytes(), True)
    return f"{len(SAMPLES)} sheets"


def test_describe_stored_sheets(_):
    sheets = accepted_sheets()
    for k, sheet in enumerate(sheets):
        same(f"sheet {k} built again", built_again(sheet) == sheet, True)
    return f"{len(sheets)} sheets"


def test_describe_changed_sheets(_):
    sheets = changed_sheets(CHANGED)
    for k, sheet in enumerate(sheets):
        same(f"sheet {k} built again", built_again(sheet) == sheet, True)
    return f"{len(sheets)} sheets, seed {SEED}"


def wide_sheet(mapping, replacement, count):
    """A sheet of one font with so many cells of one pixel, 1,024 in a row."""
    width = layout.MOST_ATLAS_WIDTH
    atlas = random.Random(SEED).randbytes(-(-count // width) * width // 8)
    font = FontPart("0", atlas, mapping, replacement, width, (1, 1, 0, 0, 0, 0, 0, 0), None)
    return assemble((8, 8, 255), [font], [])


def test_describe_many_glyphs(_):
    """As many characters as a mapping may spell: each index is one of a glyph, also the last that fits its field."""
    every = bytes.fromhex("00 F0 90 80 80 F0 9F BF BF")
    sheets = [wide_sheet(every, replacement, 65_536) for replacement in (0, 65_535)]
    same("atlas bytes", len(sheets[0]) - 24 - 28 - len(every), 8_192)
    sheets += [wide_sheet(bytes.fromhex("00 F0 90 80 80 F0 9F BF BE"), replacement, 65_536) for replacement in (9, 65_535)]
    for k, sheet in enumerate(sheets):
        same(f"sheet {k} accepted", explain(sheet), None)
        same(f"sheet {k} built again", built_again(sheet) == sheet, True)
    text = describe(sheets[0], "sheet").replace("replacement U+10000", "replacement none")
    try:
        read_description(Text(text), "-")
    except Problem as problem:
        same("without a replacement", "line 11: font 0: the replacement's index is 65536, above 65535" in str(problem), True)
    else:
        raise AssertionError("an index that does not fit is accepted")
    return f"{len(sheets)} sheets"


def test_describe_refused(folder):
    (folder / "bad.sheet").write_bytes(b"\0" * 24)
    expect_error(sheet_tool("describe", folder / "bad.sheet"), 1, "refused with 1")
    expect_error(sheet_tool("describe", folder / "missing.sheet"), 2, "No such file")


def test_diff_is_complete(_):
    """A difference is told exactly where the bytes differ."""
    chance, sheets = random.Random(SEED), accepted_sheets() + changed_sheets(CHANGED)
    for _ in range(PAIRS):
        one, other = chance.choice(sheets), chance.choice(sheets)
        same("differences told", bool(list(differences(one, other))), one != other)
    return f"{PAIRS} pairs, seed {SEED}"


def test_diff(folder):
    """Each field, by a change of the description."""
    toml = (ROOT / "samples/greek.toml").read_text(encoding="utf-8").replace("fonts/", f"{ROOT}/samples/fonts/")
    font = (ROOT / "samples/fonts/greek-8x12.txt").read_text(encoding="utf-8")
    changes = [
        ("paper = 248", "paper = 247", "paper: 248 -> 247"), ("width = 240", "width = 241", "frame width: 240 -> 241"),
        ("y = 6\n", "y = 7\n", "item 1: y: 6 -> 7"), ("text_grey = 248", "text_grey = 249", "item 0: text grey: 248 -> 249\nitem 1: text grey: 248 -> 249"),
        ("underline = 160", "underline = 161", "item 2: underline: 160 -> 161"), ("underline = 160", "strikethrough = 160", None),
        ('text = "6,4 mm"', 'text = "6,5 mm"', 'item 6: text: "6,4 mm" -> "6,5 mm"'), ("slot = 24", "slot = 25", "item 10: slot: 24 -> 25"),
        ("line_height = 16", 'line_height = "90%"', "item 3: line height: 16 pixels -> 90 percent\nitem 10: line height: 16 pixels -> 90 percent"),
        ('underline = 160\n', "unused_underline_grey = 5\n", "item 2: underline: 160 -> none"),
    ]
    one, other = folder / "one.sheet", folder / "other.sheet"
    (folder / "a.toml").write_text(toml, encoding="utf-8")
    same("new", sheet_tool("new", folder / "a.toml", one).status, 0)
    for old, new, lines in changes:
        (folder / "b.toml").write_text(toml.replace(old, new, 1), encoding="utf-8")
        same(f"new with {new}", sheet_tool("new", folder / "b.toml", other).status, 0)
        run = sheet_tool("diff", one, other)
        same(f"diff by {new}", (run.status, run.err), (1, ""))
        if lines is not None:
            same(f"diff by {new}", run.out, lines + "\n")
    (folder / "f.txt").write_text(font.replace("glyph U+0391", "glyph U+0416", 1).replace("spacing 0", "spacing 1"), encoding="utf-8")
    (folder / "b.toml").write_text(toml.replace(f"{ROOT}/samples/fonts/greek-8x12.txt", "f.txt").replace("text = ", "missing_glyphs = true\ntext = "),
                                   encoding="utf-8")
    same("new with another font", sheet_tool("new", folder / "b.toml", other).status, 0)
    run = sheet_tool("diff", one, other)
    same("diff by another font", ("font 0: spacing: 0 -> 1" in run.out, "font 0: mapping: " in run.out), (True, True))
    same("diff of one sheet", sheet_tool("diff", one, one), Run(0, "", ""))
    other.write_bytes(one.read_bytes()[:-1])
    expect_error(sheet_tool("diff", one, other), 2, "refused with 1")
    expect_error(sheet_tool("diff", one, folder / "missing"), 2, "No such file")
    return f"{len(changes) + 4} pairs"


def test_header_of_logger(folder):
    """examples/logger/hydrograph.h is what 'new --header' writes today."""
    run = sheet_tool("new", ROOT / "samples/hydrograph.toml", folder / "hydrograph.sheet", "--header", folder / "hydrograph.h")
    same("status and errors", (run.status, run.err), (0, ""))
    same("the stored header", (folder / "hydrograph.h").read_text(encoding="utf-8"),
         (ROOT / "examples/logger/hydrograph.h").read_text(encoding="utf-8"))


def test_header_of_samples(folder):
    """The numbers are those of the sheet's bytes."""
    for path in SAMPLES:
        header, sheet = folder / f"{path.stem}.h", path.with_suffix(".sheet").read_bytes()
        run = sheet_tool("new", path, folder / "a.sheet", "--header", header)
        same("status and errors", (run.status, run.err), (0, ""))
        words = dict(re.findall(rf"^#define {path.stem.upper()}_(\w+) (\d+)$", header.read_text(encoding="utf-8"), re.M))
        number = explained.stored_sheets.number
        same("frame, length and counts", [int(words[key]) for key in ("WIDTH", "HEIGHT", "LENGTH", "FONTS", "ITEMS")],
             [number(sheet, 2, 2), number(sheet, 4, 2), len(sheet), sheet[7], number(sheet, 8, 2)])
        named = re.findall(r"^item (\d+): (.*)$", run.out, re.M)
        same("named items", len([key for key in words if key.startswith("ITEM_")]), len(named))
        for item, name in named:
            word = re.sub("[^A-Z0-9]+", "_", name.upper())
            same(f"item {name}", words[f"ITEM_{word}"], item)
            same(f"slot of {name}", int(words[f"SLOT_{word}"]), number(sheet, 24 + 28 * sheet[7] + 28 * int(item) + 8, 2))


def test_header_errors(folder):
    toml = (ROOT / "samples/greek.toml").read_text(encoding="utf-8").replace("fonts/", f"{ROOT}/samples/fonts/")
    for old, new, words in (('name = "title"', 'name = "τίτλος"', "line 39: item 1 (τίτλος): 'τίτλος' gives no name"),
                            ('name = "title"', 'name = "Place!"', "line 47: item 2 (place): 'place' gives the name PLACE in the header, as item 1 does"),
                            ('name = "greek"', 'name = "é"', "line 9: font 0: 'é' gives no name")):
        (folder / "a.toml").write_text(toml.replace(old, new), encoding="utf-8")
        expect_error(sheet_tool("new", folder / "a.toml", folder / "a.sheet", "--header", folder / "a.h"), 1, words)
    same("files written in spite of an error", list(folder.glob("a.[sh]*")), [])


def test_header_of_the_library_is_not_taken(folder):
    """Every macro of include/station.h begins with STATION_: a header whose names would do so too is refused."""
    same("macros", set(re.findall(r"^#define ((?!STATION_)\w+)", (ROOT / "include/station.h").read_text(encoding="utf-8"), re.M)), set())
    toml, sheet = folder / "station.toml", folder / "a.sheet"
    toml.write_bytes(describe((ROOT / "samples/greek.sheet").read_bytes(), "greek").encode("utf-8"))
    for name in ("station.h", "Station.h", "-station-.h", "station_at.h", "station-item-at.hpp"):
        expect_error(sheet_tool("new", toml, sheet, "--header", folder / name), 2, f"as the library's do: take another file name than {name}")
    expect_error(sheet_program("new", toml, sheet, "--header", "-"), 2, "take another file name than station.toml")
    same("files written in spite of an error", sorted(path.name for path in folder.iterdir()), ["station.toml"])
    for name in ("stations.h", "north_station.h"):
        same(name, sheet_tool("new", toml, sheet, "--header", folder / name).status, 0)
