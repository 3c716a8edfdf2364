"""Tests of BDF fonts in tools/sheet: the tool finds the fault that the model finds, and says it; a sheet with such a font can be shown, described and
compared."""
import random
import shutil
import struct

import bdf_model
import stored_fonts
from described import built_again
from tool_runs import ROOT, Run, expect_error, programs_of, same, sheet_tool
from station_sheet import layout
from station_sheet.bdf import explain_bdf

SEED = 4127
DAMAGES = 4_000
GEORGIAN = ROOT / "samples/fonts/georgian-9x18.bdf"
DESCRIPTION = '[frame]\nwidth = 8\nheight = 8\npaper = 0\n[[font]]\nfile = "a.bdf"\n'


def found(content):
    """The number and the line that the tool finds, and the model."""
    refusal, answer = explain_bdf(content), bdf_model.read(content)
    return (refusal.number, refusal.line) if refusal else None, answer[1:] if answer[0] == "refused" else None


def damaged(content, chance):
    """A file with one to three changes: a byte, a word or a line is another, is there twice or is not there."""
    for _ in range(chance.randrange(1, 4)):
        mark = chance.choice((b"", b" ", b"\n"))
        parts = content.split(mark) if mark else [bytes([b]) for b in content]
        at = chance.randrange(len(parts)) if parts else 0
        others = [b"", b"-", b"0", b"9", b"\r", b"\t", b"COMMENT", b"-1", b"1000000001", b"ENDCHAR", *parts[at:at + 1] * 3,
                  *chance.sample(parts, min(2, len(parts)))]
        parts[at:at + 1] = [chance.choice(others) for _ in range(chance.randrange(3))]
        content = mark.join(parts)
    return content


def test_bdf_explained(_):
    """On the stored files, the sample's font, and damaged ones of both."""
    files = [content for _, _, content in stored_fonts.fill()]
    good = [content for _, refusal, content in stored_fonts.fill() if refusal == 0]
    for k, content in enumerate([*files, GEORGIAN.read_bytes()]):
        same(f"file {k}", *found(content))
    chance, refused = random.Random(SEED), 0
    for k in range(DAMAGES):
        content = damaged(chance.choice(good), chance)
        tool, model = found(content)
        same(f"damaged file {k}, {content!r}", tool, model)
        refused += tool is not None
    same("damaged files that are refused, and others", (refused > DAMAGES // 3, refused < DAMAGES), (True, True))
    return f"{len(files)} files, {DAMAGES} damaged"


def make_sheet(folder, content, more=""):
    (folder / "a.bdf").write_bytes(content)
    (folder / "a.toml").write_text(DESCRIPTION + more, encoding="utf-8")
    return sheet_tool("new", folder / "a.toml", folder / "a.sheet")


def test_bdf_in_sheet(folder):
    """A sheet has what the model reads, but for the offsets; it is shown, and described so that the same bytes are built."""
    made = 0
    for name, refusal, content in stored_fonts.fill():
        if refusal != 0 or made >= 40 and len(content) < 1_000:
            continue
        same(f"{name}: new", make_sheet(folder, content).status, 0)
        sheet, font = (folder / "a.sheet").read_bytes(), bdf_model.read(content)[1]
        atlas, _, mapping = struct.unpack_from("<IIH", font, 4)
        at = layout.HEADER_SIZE + layout.FONT_SIZE
        same(f"{name}: record", sheet[24:52], struct.pack("<III", at, atlas, at + atlas) + font[12:28])
        same(f"{name}: atlas and mapping", sheet[52:], font[28:])
        same(f"{name}: show", (sheet_tool("show", folder / "a.sheet").status, len(mapping_of(sheet))), (0, mapping))
        same(f"{name}: described", built_again(sheet), sheet)
        made += 1
    return f"{made} fonts"


def mapping_of(sheet):
    font = layout.font_of(sheet, 0)
    return sheet[font.mapping_at:font.mapping_at + font.mapping_length]


def test_bdf_replacement(folder):
    content = GEORGIAN.read_bytes()
    same("without a replacement", make_sheet(folder, content).status, 0)
    shutil.copy(folder / "a.sheet", folder / "b.sheet")
    same("with one", make_sheet(folder, content, "replacement = 60\n").status, 0)
    same("diff", sheet_tool("diff", folder / "b.sheet", folder / "a.sheet"), Run(1, "font 0: replacement index: 0 -> 60\n", ""))
    expect_error(make_sheet(folder, content, "replacement = 65536\n"), 1, "from 0 to 65535")
    changed = content.replace(b"ENCODING 4304", b"ENCODING 4303").replace(b"COPYRIGHT", b"COPYLEFT", 1)
    same("another encoding", make_sheet(folder, changed, "replacement = 60\n").status, 0)
    shutil.copy(folder / "a.sheet", folder / "b.sheet")
    make_sheet(folder, content, "replacement = 60\n")
    same("diff of encodings", "U+10CF" in sheet_tool("diff", folder / "b.sheet", folder / "a.sheet").out, True)


def test_errors_of_bdf(folder):
    """The number, the line and the cause, and what else can be wrong."""
    good = stored_fonts.file(stored_fonts.BASE)
    for old, new, words in (
            (b"SIZE 8 75 75", b"SIZE 8 75", "a.bdf: line 3: refused with 19: SIZE takes 3 numbers, and has 2 words"),
            (b"X 4 3 0 -1", b"X 65 3 0 -1", "a.bdf: line 4: refused with 20: the cell's width is 65, above 64"),
            (b"X 4 3 0 -1", b"X 4 3 0 254", "line 4: refused with 20: the baseline"),
            (b"ENCODING 66", b"ENCODING 65", "line 21: refused with 21: the encoding 65 (U+0041) does not rise"),
            (b"ENCODING 65", b"ENCODING -1", "line 11: refused with 21: the encoding -1 is no character"),
            (b"A0\n", b"A\n", 'line 17: refused with 19: row 1 of 2 is "A"'),
            (b"BBX 3 2 1 0", b"BBX 3 2 2 0", "line 14: refused with 20: the glyph's box passes its cell, which is FONTBOUNDINGBOX: its right by 1"),
            (b"ENDFONT\n", b"", "line 30: refused with 19: the file ends here, and ENDFONT is missing")):
        expect_error(make_sheet(folder, good.replace(old, new, 1)), 1, words)
    expect_error(make_sheet(folder, good, "columns = 4\n"), 1, "'columns' is no key here")
    expect_error(make_sheet(folder, good, 'mapping = "A"\n'), 1, "'mapping' is no key here")
    expect_error(make_sheet(folder, good + b"\n" * (1 << 24)), 1, "longer than")
    (folder / "a.bdf").unlink()
    expect_error(sheet_tool("new", folder / "a.toml", folder / "b.sheet"), 2, "No such file")
    same("a sheet written in spite of an error", (folder / "a.sheet").exists() or (folder / "b.sheet").exists(), False)


def test_bdf_with_another_program(folder):
    """Without read_bdf; and with one that does not read as the tool does, or writes something else."""
    good, bad = stored_fonts.file(stored_fonts.BASE), stored_fonts.file(stored_fonts.BASE[:-1])
    program = folder / "read_bdf"
    with programs_of(folder):
        expect_error(make_sheet(folder, good), 2, "target/bin/read_bdf is missing: make it with 'tools/build.sh read_bdf'")
    for content, said, words in ((good, "echo refused 20", "refuses it with 20, and the tool finds no fault in it"),
                                 (bad, "echo refused 20", "and the tool finds 19 on line 30"),
                                 (bad, "printf x", "reads it, and the tool finds 19 on line 30"), (good, "printf x", "something else than a record"),
                                 (good, "head -c 40 /dev/zero", "something else than a record"), (good, "exit 3", "ended with status 3")):
        program.write_text(f"#!/bin/sh\ncat >/dev/null\n{said}\n", encoding="ascii")
        program.chmod(0o755)
        with programs_of(folder):
            expect_error(make_sheet(folder, content), 2, words)
