"""Tests of tools/sheet, the samples, the table of refusals and the header's numbers.

Usage: python3 tests/tools.py CHECK ITEMS

CHECK is the program of tests/host/check.c: it answers station_check for many sheets. ITEMS is that of tests/host/items.c: it measures and
draws a sheet's items. Prints 'ok NAME' or 'FAILED NAME: why' for each test; the exit status is 1 if one failed.
"""
import os
import random
import re
import shutil
import signal
import struct
import subprocess
import sys
import zlib

from tool_runs import ROOT, SAMPLES, Run, expect_error, programs_of, run_tests, said_by, said_into_full, same, sheet_program, sheet_tool

import bdf_fonts
import described
import edited
import explained
import gate
import guide
import must_fail
import paper_model
import stored_sheets
import wrong_inputs
from station_sheet import layout, show


SEED = 4127


def page_of(sheet):
    return subprocess.run([ROOT / "target/bin/station_page"], input=sheet, capture_output=True, check=True).stdout


# ---- samples

def test_samples_rebuilt(folder):
    for description in SAMPLES:
        new = folder / "new.sheet"
        run = sheet_tool("new", description, new)
        same(f"{description.name}: status and errors", (run.status, run.err), (0, ""))
        if new.read_bytes() != description.with_suffix(".sheet").read_bytes():
            raise AssertionError(f"{description.name} does not give the stored sheet")


def test_samples_drawn(_):
    for description in SAMPLES:
        if page_of(description.with_suffix(".sheet").read_bytes()) != description.with_suffix(".pgm").read_bytes():
            raise AssertionError(f"{description.stem}.sheet does not give the stored page")


def test_samples_explained(_):
    for description in SAMPLES:
        sheet = description.with_suffix(".sheet")
        same(f"explain {sheet.name}", sheet_tool("explain", sheet), Run(0, f"{sheet}: accepted\n", ""))


def test_ascii_is_complete(_):
    glyphs = re.findall(r"^glyph U\+([0-9A-F]+)", (ROOT / "samples/fonts/plain-6x10.txt").read_text(encoding="utf-8"), re.M)
    missing = set(range(0x20, 0x7F)) - {int(g, 16) for g in glyphs}
    same("printable ASCII without a glyph", missing, set())


# ---- show

def measured_by_host(sheet):
    run = subprocess.run([sys.argv[2]], input=sheet, capture_output=True, check=True)
    return run.stdout.decode("ascii")


def test_show(folder):
    for description in SAMPLES:
        sheet = description.with_suffix(".sheet").read_bytes()
        shutil.copy(sys.argv[2], folder / "station_items")
        with programs_of(folder):
            run = sheet_tool("show", description.with_suffix(".sheet"))
        same(f"show {description.stem}: status and errors", (run.status, run.err), (0, ""))
        lines = run.out.split("\n")
        fonts, items = sheet[7], stored_sheets.number(sheet, 8, 2)
        same("lines", len(lines), 2 + 4 * fonts + 4 * items + 1)
        for k in range(fonts):
            o = 24 + 28 * k
            same("font", lines[2 + 4 * k].split(",")[0], f"font {k} at {o}: cell {sheet[o + 18]} by {sheet[o + 19]}")
            for line, at, size in ((4, 0, 4), (5, 8, 2)):
                start = f"    {'atlas' if line == 4 else 'mapping'} at {stored_sheets.number(sheet, o + at, 4)}: "
                same("piece", lines[line + 4 * k].startswith(start + f"{stored_sheets.number(sheet, o + at + 4, size)} bytes"), True)
        measured = measured_by_host(sheet).splitlines()
        for k in range(items):
            o = 24 + 28 * fonts + 28 * k
            x, y, slot, size, length = struct.unpack_from("<hhIHH", sheet, o)
            record, style, text, box = lines[2 + 4 * fonts + 4 * k:][:4]
            same("item", record.startswith(f"item {k} at {o}: x {x}, y {y}, font {sheet[o + 12]}, "), True)
            same("style", style.startswith(f"    style at {o + 13}: text {sheet[o + 14] if sheet[o + 13] else 'none'}, "), True)
            stored = sheet[slot:slot + length].decode("utf-8").replace("\n", "\\n")
            same("text", text, f'    slot at {slot}: {size} bytes, text {length} bytes: "{stored}"')
            same("box", " ".join([str(k), *re.findall(r"-?\d+", box)]), measured[k])


def test_show_without_program(folder):
    with programs_of(folder):
        run = sheet_tool("show", ROOT / "samples/greek.sheet")
    same("status", run.status, 0)
    same("lines", run.out.count("\n"), 2 + 4 + 3 * 11)
    same("how to make it", ("'tools/build.sh station_items' makes it" in run.err, run.err.count("\n")), (True, 1))
    (folder / "station_items").write_text("#!/bin/sh\necho 0 1 2 3\n", encoding="ascii")
    (folder / "station_items").chmod(0o755)
    with programs_of(folder):
        expect_error(sheet_tool("show", ROOT / "samples/greek.sheet"), 2, "something else than eight numbers")


def with_texts(sheet, chance):
    """A sheet whose items have random texts: characters of the samples' fonts, others, and returns and feeds anywhere."""
    edited = bytearray(sheet)
    for k in range(stored_sheets.number(sheet, 8, 2)):
        text = "".join(chance.choices("Am 2.\r\r\n°↑λ☂☀≈é\0\ud7ff\U0010ffffßçñøåœđłπ", k=chance.choice((1, 3, 8, 30))))
        paper_model.set_text(edited, None, k, text.encode("utf-8"))
    return bytes(edited)


def test_show_not_listed(_):
    """The characters that are shown as not listed, by a model of the paper, and the exported call's number of them."""
    chance, shown, longest, items = random.Random(SEED), 0, 0, 0
    for path in SAMPLES * 6:
        sheet = with_texts(path.with_suffix(".sheet").read_bytes(), chance)
        measured = [[int(word) for word in line.split()][1:] for line in measured_by_host(sheet).splitlines()]
        expected = []
        for k, row in enumerate(measured):
            item = paper_model.item_at(sheet, k)
            missing = [ch for line, *_ in paper_model.lines_of(item) for ch in line if not paper_model.is_listed(item.font, ch)]
            same(f"{path.stem}, item {k}: replaced", row[6], len(missing))
            names = [layout.code_point(ch) for ch in dict.fromkeys(missing)]
            more = f" and {len(names) - 12} more" if len(names) > 12 else ""
            expected += [f"    not listed: {', '.join(names[:12])}{more}"] if names else []
            longest = max(longest, len(names))
        same(path.stem, [line for line in show.show(sheet, None, measured) if "not listed" in line], expected)
        shown, items = shown + len(expected), items + len(measured)
    same("items with and without such characters, and with many", (items > shown > 300, items - shown > 50, longest > 12), (True, True, True))
    return f"{shown} items of {items}, seed {SEED}"


def test_station_items(_):
    """Where the program is built, it measures as the exported calls do, on the samples and on each stored sheet."""
    program = ROOT / "target/bin/station_items"
    if not program.is_file():
        return "target/bin/station_items is not there"
    sheets = [path.with_suffix(".sheet").read_bytes() for path in SAMPLES] + explained.stored()
    for k, sheet in enumerate(sheets):
        run = subprocess.run([program], input=sheet, capture_output=True, check=False)
        same(f"sheet {k}", run.stdout.decode("ascii"), measured_by_host(sheet))
    return f"{len(sheets)} sheets"


def test_errors_of_station_page(_):
    """What it says on standard error: that a sheet is refused, and that a page was not written. Nothing for a page that was."""
    good = ROOT / "samples/greek.sheet"
    for sheet, number in ((b"", 1), (b"\2" + good.read_bytes()[1:], 2), (bytes(65_537), 1)):
        out, err = said_by("station_page", sheet)
        same("a refused sheet", (out, err.count("\n"), f"refused {number}" in err), (f"refused {number}\n".encode(), 1, True))
    same("a page", said_by("station_page", good.read_bytes())[1], "")
    err = said_into_full("station_page", good)
    same("a page into a full output", (err.count("\n"), "page not written" in err), (1, True))


def test_errors_of_station_items(_):
    """The same of station_items, where it is built."""
    if not (ROOT / "target/bin/station_items").is_file():
        return "target/bin/station_items is not there"
    good = ROOT / "samples/greek.sheet"
    same("a refused sheet", said_by("station_items", b"")[1].count("\n"), 1)
    same("measured items", said_by("station_items", good.read_bytes())[1], "")
    same("items into a full output: an error is said", said_into_full("station_items", good) != "", True)
    return None


def test_show_refused(folder):
    sheet = bytearray((ROOT / "samples/greek.sheet").read_bytes())
    sheet[52 + 28 + 21] = 7
    (folder / "bad.sheet").write_bytes(sheet)
    run = sheet_tool("show", folder / "bad.sheet")
    same("status", run.status, 1)
    same("what can be shown", "font 0, code 7, Top" in run.out, True)
    same("error", run.err, f"sheet: {folder / 'bad.sheet'}: refused with 9 at byte 101: item 1's alignment is 7, and the codes are 0 to 2\n")


# ---- view

def png_greys(data):
    """The width, the height and the greys of a PNG of 8-bit grey whose rows have the filters 0 and 2."""
    same("signature", data[:8], b"\x89PNG\r\n\x1a\n")
    at, chunks = 8, {}
    while at < len(data):
        size, kind = struct.unpack_from(">I4s", data, at)
        body = data[at + 8:at + 8 + size]
        same("checksum", struct.unpack_from(">I", data, at + 8 + size)[0], zlib.crc32(kind + body))
        chunks[kind] = body
        at += 12 + size
    width, height, *kinds = struct.unpack(">IIBBBBB", chunks[b"IHDR"])
    same("kinds", kinds, [8, 0, 0, 0, 0])
    rows, above = zlib.decompress(chunks[b"IDAT"]), bytes(width)
    same("bytes of all rows", len(rows), height * (width + 1))
    greys = b""
    for y in range(height):
        row = rows[y * (width + 1):(y + 1) * (width + 1)]
        above = row[1:] if row[0] == 0 else bytes((a + b) % 256 for a, b in zip(row[1:], above))
        greys += above
    return width, height, greys


def scaled(page, scale):
    head, width, height = page.split(b"\n")[0], *map(int, page.split(b"\n")[1].split())
    same("page", head, b"P5")
    greys = page[len(page) - width * height:]
    rows = [bytes(g for g in greys[y * width:(y + 1) * width] for _ in range(scale)) for y in range(height)]
    return width * scale, height * scale, b"".join(row for row in rows for _ in range(scale))


def test_view(folder):
    for description in SAMPLES:
        sheet, page = description.with_suffix(".sheet"), description.with_suffix(".pgm")
        for scale, words in ((1, ()), (3, ("--scale", 3)), (1, ("--page", page))):
            png = folder / "page.png"
            same(f"view {sheet.name}", sheet_tool("view", sheet, png, *words), Run(0, "", ""))
            if png_greys(png.read_bytes()) != scaled(page.read_bytes(), scale):
                raise AssertionError(f"{sheet.name}: the PNG at scale {scale} has other greys than the page")


def test_pictures(_):
    for picture, sample in (("page", "hydrograph"), ("georgian", "georgian")):
        if png_greys((ROOT / f"docs/{picture}.png").read_bytes()) != scaled((ROOT / f"samples/{sample}.pgm").read_bytes(), 2):
            raise AssertionError(f"docs/{picture}.png is not the page of samples/{sample}.sheet at scale 2")


# ---- errors

GOOD = '''[frame]
width = 60
height = 20
paper = 255
[[font]]
name = "plain"
file = "FONT"
[style.label]
text_grey = 0
[[item]]
style = "label"
x = 1
y = 2
text = "level"
slot = 8
'''
# A change of the description, and words of the error.
DESCRIPTION_ERRORS = [
    ("[frame]", "[frame", "no TOML"), ("width = 60", "", "'width' is missing"), ("width = 60", "width = 0", "from 1 to 512"),
    ("width = 60", "width = true", "whole number"), ("width = 60", "width = 6.5", "whole number"), ("paper = 255", "paper = 256", "from 0 to 255"),
    ("width = 60\nheight = 20", "width = 512\nheight = 200", "refused with 3"), ("paper = 255", "ink = 1", "'ink' is no key"),
    ('name = "plain"', "name = 5", "must be a string"), ('"FONT"', '"nothing.txt"', "No such file"), ("[[font]]", "[font]", "[[font]]"),
    ('file = "FONT"', 'file = "FONT"\ncolumns = 200', "above 1024"), ("[style.label]", "[style]", "style 'text_grey' must be a table"),
    ("text_grey = 0", 'text_grey = "black"', "whole number"), ("text_grey = 0", "underline = \"own\"", "a grey or"),
    ("text_grey = 0", "text = 5", "'text' is no key"), ('style = "label"', 'style = "titel"', "no style 'titel'"), ("x = 1", "", "'x' is missing"),
    ("x = 1", "x = 40000", "from -32768 to 32767"), ('text = "level"', "", "'text' is missing"),
    ('text = "level"', 'text = "level 2.31"', "10 bytes, and its slot 8"),
    ('text = "level"', 'text = "Stufe é"', "no glyph for U+00E9"), ('text = "level"', r'text = "le\rvel"', "no glyph for U+000D"),
    ('text = "level"', r'text = "level\r\r"', "no glyph for U+000D"), ('text = "level"', 'lines = "level"', "'lines' is a list"),
    ("slot = 8", "slot = 257", "from 0 to 256"), ("slot = 8", "slot = 8\nfont = \"large\"", "no font 'large'"),
    ("slot = 8", 'slot = 8\nalignment = "middle"', "left, centre, right"), ("slot = 8", 'slot = 8\nbaseline = "low"', "top, bottom, middle, alphabetic"),
    ("slot = 8", 'slot = 8\nline_height = "12"', "line_height"), ("slot = 8", "slot = 8\nline_height = 1001", "from 0 to 1000"),
    ('[[font]]\nname = "plain"\nfile = "FONT"', "", "needs a font"), ("slot = 8", "slot = 8" + '\n[[item]]\nx = 0\ny = 0\ntext = ""' * 64, "refused with 4"),
]
FONT = "cell 2 3\nreplacement U+0041\nglyph U+0041 A\n.#\n##\n.#\n"
FONT_ERRORS = [
    (".#\n##", ".#\n#", "line 5: a row of glyph U+0041 has 1 columns"), ("##", "#x", "line 5: a row of glyph U+0041 has something else"),
    (".#\n##\n.#\n", ".#\n##\n", "glyph U+0041 has 2 rows"), (".#\n##\n.#\n", ".#", "glyph U+0041 has 1 rows"), ("cell 2 3\n", "", "must come before"),
    ("cell 2 3", "cell 2 65", "from 0 to 64"), ("cell 2 3", "cell 2", "takes 2 numbers"), ("glyph U+0041 A", "glyph 41", "'41' is no character"),
    ("glyph U+0041 A", "glyph U+D800", "'U+D800' is no character"), ("glyph U+0041 A", "glyph", "needs its character"),
    ("replacement U+0041", "replacement U+0042", "U+0042 has no glyph"), ("replacement", "default", "'default' is no word"),
    ("##\n.#\n", "##\n.#\nglyph U+0041\n.#\n##\n.#\n", "there twice"),
]


def test_errors_of_new(folder):
    good = GOOD.replace("FONT", str(ROOT / "samples/fonts/plain-6x10.txt"))
    description, out = folder / "a.toml", folder / "a.sheet"
    description.write_text(good, encoding="utf-8")
    same("the good description", sheet_tool("new", description, out).status, 0)
    description.write_text(good.replace('text = "level"', r'lines = ["le\r", "vel\r"]'), encoding="utf-8")
    same("a return at each line's end", sheet_tool("new", description, out).status, 0)
    out.unlink()
    for old, new, words in DESCRIPTION_ERRORS:
        description.write_text(GOOD.replace(old, new, 1).replace("FONT", str(ROOT / "samples/fonts/plain-6x10.txt")), encoding="utf-8")
        expect_error(sheet_tool("new", description, out), 2 if "No such" in words else 1, words)
    description.write_bytes(b"\xff\xfe")
    expect_error(sheet_tool("new", description, out), 1, "UTF-8")
    same("a sheet written in spite of an error", out.exists(), False)
    return f"{len(DESCRIPTION_ERRORS) + 1} descriptions"


def test_errors_of_fonts(folder):
    description, font, out = folder / "b.toml", folder / "b.txt", folder / "b.sheet"
    description.write_text('[frame]\nwidth = 8\nheight = 8\npaper = 0\n[[font]]\nfile = "b.txt"\n', encoding="utf-8")
    font.write_text(FONT, encoding="utf-8")
    same("the good font", sheet_tool("new", description, out).status, 0)
    for old, new, words in FONT_ERRORS:
        font.write_text(FONT.replace(old, new, 1), encoding="utf-8")
        expect_error(sheet_tool("new", description, out), 1, words)
    font.write_bytes(b"cell \xff")
    expect_error(sheet_tool("new", description, out), 1, "UTF-8")
    return f"{len(FONT_ERRORS) + 1} fonts"


def test_errors_of_commands(folder):
    sample, missing = ROOT / "samples/greek.sheet", folder / "missing"
    cut, page = folder / "cut.sheet", folder / "bad.pgm"
    cut.write_bytes(sample.read_bytes()[:-1])
    page.write_bytes(b"P5\n240 160\n255\nshort")
    runs = [
        ((), 2, "required"), (("draw", sample), 2, "invalid choice"), (("show",), 2, "required"), (("show", missing), 2, "No such file"),
        (("explain", missing), 2, "No such file"), (("explain", folder), 2, "directory"), (("view", missing, folder / "a.png"), 2, "No such file"),
        (("new", missing, folder / "a.sheet"), 2, "No such file"), (("new", ROOT / "samples/greek.toml", folder / "no" / "a"), 2, "No such file"),
        (("view", sample, folder / "no" / "a.png"), 2, "No such file"), (("view", cut, folder / "a.png"), 1, "refused with 1 at byte 20"),
        (("view", sample, folder / "a.png", "--page", page), 1, "no page"), (("view", sample, folder / "a.png", "--page", missing), 2, "No such file"),
        (("view", sample, folder / "a.png", "--page", sample), 1, "no page"),
        (("view", sample, folder / "a.png", "--page", ROOT / "samples/table.pgm"), 1, "256 by 248"),
        (("view", sample, folder / "a.png", "--scale", "0"), 2, "scale"), (("view", sample, folder / "a.png", "--scale", "big"), 2, "scale"),
    ]
    for words, status, expected in runs:
        expect_error(sheet_tool(*words), status, expected)
    same("a PNG written in spite of an error", (folder / "a.png").exists(), False)
    same("explain of a refused sheet", sheet_tool("explain", cut),
         Run(1, f"{cut}: refused with 1 at byte 20: the length field says 1991 bytes, and the file has 1990\n", ""))
    return f"{len(runs)} commands"


def test_errors_of_output(_):
    """A full output, and one that has no Greek."""
    words = [sys.executable, str(ROOT / "tools/sheet"), "show", str(ROOT / "samples/greek.sheet")]
    with open("/dev/full", "wb") as full:
        run = subprocess.run(words, stdout=full, stderr=subprocess.PIPE, check=False)
    expect_error(Run(run.returncode, "", run.stderr.decode("utf-8")), 2, "standard output")
    run = subprocess.run(words, capture_output=True, check=False, env={**os.environ, "PYTHONIOENCODING": "ascii"})
    same("status in ASCII", run.returncode, 0)
    same("errors in ASCII", [line for line in run.stderr.splitlines() if b"station_items is missing" not in line], [])


def test_view_without_program(folder):
    shutil.copytree(ROOT / "tools", folder / "elsewhere" / "tools")
    tool = folder / "elsewhere" / "tools" / "sheet"
    run = sheet_program("view", ROOT / "samples/greek.sheet", folder / "b.png", tool=tool)
    expect_error(run, 2, "target/bin/station_page is missing")
    run = sheet_program("view", ROOT / "samples/greek.sheet", folder / "b.png", "--page", ROOT / "samples/greek.pgm", tool=tool)
    same("view with a page", run, Run(0, b"", ""))


def test_tool_is_executable(_):
    run = subprocess.run([ROOT / "tools/sheet", "explain", ROOT / "samples/smallest.sheet"], capture_output=True, check=False)
    same("status", run.returncode, 0)


# ---- the refusals' names

def test_refusals(_):
    header = (ROOT / "include/station.h").read_text(encoding="utf-8")
    table = (ROOT / "docs/REFUSALS.md").read_text(encoding="utf-8")
    named = [(int(n), name) for name, n in re.findall(r"^    STATION_REFUSED_(\w+) = (\d+),?$", header, re.M)]
    documented = [(int(n), name) for n, name in re.findall(r"^\| (\d+) \| `(\w+)` \|", table, re.M)]
    same("names of docs/REFUSALS.md", documented, named)
    same("numbers", [n for n, _ in named], list(range(1, 23)))


# ---- the header's numbers

def offsets(form, fields):
    """Where each field stands in a record of this form."""
    kinds = [kind for count, kind in re.findall(r"(\d*)(\w)", form.format.lstrip("<")) for _ in range(int(count or 1))]
    return {name: struct.calcsize("<" + "".join(kinds[:k])) for k, name in enumerate(fields)}


def test_offsets_of_header(_):
    """The offsets of include/station.h are those of tools/station_sheet/layout.py, by which the sheets are built and explained."""
    text = (ROOT / "include/station.h").read_text(encoding="utf-8")
    stated = {name: int(value) for name, value in re.findall(r"^#define STATION_((?:ITEM_)?AT_\w+) (\d+)$", text, re.M)}
    header, item = offsets(layout.HEADER_FORM, layout.Header._fields), offsets(layout.ITEM_FORM, layout.Item._fields)
    expected = {f"AT_{name.upper()}": header[name] for name in ("width", "height", "paper", "fonts", "items", "length")}
    named = dict(x="x", y="y", slot="slot_at", slot_size="slot_size", text_length="text_length", font="font", style="text_mode",
                 alignment="alignment", baseline="baseline", height_kind="height_kind", height="height_value")
    expected.update({f"ITEM_AT_{name.upper()}": item[field] for name, field in named.items()})
    same("offsets", stated, expected)
    records = re.findall(r"^#define STATION_(?:FONT|ITEM)_RECORD\(.*\) \((\d+) \+ (\d+) \*", text, re.M)
    same("records", records, [(str(layout.HEADER_SIZE), str(layout.FONT_SIZE)), (str(layout.HEADER_SIZE), str(layout.ITEM_SIZE))])
    most = dict(re.findall(r"^#define STATION_MOST_(\w+) (\d+)$", text, re.M))
    same("sizes", most, dict(SHEET=str(layout.MOST_BYTES), FRAME=str(layout.MOST_AREA), PAGE=str(layout.MOST_AREA + 15), SLOT=str(layout.MOST_SLOT)))


def test_walk_of_header(_):
    """The loop over a line that the header shows is the one that the logger and tests/host/layout.c run."""
    for name in ("include/station.h", "examples/logger/main.c", "tests/host/layout.c"):
        text = (ROOT / name).read_text(encoding="utf-8")
        same(f"the loop of {name}", "while (step.code == STATION_OK && step.ended == 0" in text, True)


def test_version_of_header(_):
    text = (ROOT / "include/station.h").read_text(encoding="utf-8")
    parts = [re.search(rf"^#define STATION_VERSION_{part} (\d+)$", text, re.M)[1] for part in ("MAJOR", "MINOR", "PATCH")]
    same("version", re.search(r'^#define STATION_VERSION "(.*)"$', text, re.M)[1], ".".join(parts))


def main():
    if len(sys.argv) != 3:
        sys.exit("usage: python3 tests/tools.py CHECK ITEMS")
    signal.signal(signal.SIGINT, signal.default_int_handler)  # a shell has it ignored in what it runs beside itself
    modules = (explained, sys.modules[__name__], described, edited, bdf_fonts, wrong_inputs, guide, gate, must_fail)
    return 1 if sum(run_tests(module) for module in modules) else 0


if __name__ == "__main__":
    sys.exit(main())
