"""Tests of tools/sheet with wrong inputs: one line on standard error, no input written over, '-' for a file, warnings, random edits."""
import os
import random
import re
import shutil
import subprocess
import sys
import tomllib

import paper_model
from tool_runs import ROOT, SAMPLES, Run, copy_programs, expect_error, programs_of, same, sheet_program, sheet_tool
from station_sheet import toml_lines, warning
from station_sheet.description import assemble, read_description
from station_sheet.explain import explain
from station_sheet.files import Files

SEED = 4127
EDITS = 1_500
NOBODY = 65_534

FONT = "cell 2 3\nreplacement U+0041\nglyph U+0041 A\n.#\n##\n.#\n"
DESCRIPTION = '''[frame]
width = 60
height = 20
paper = 255

[[font]]
name = "plain"
file = "font.txt"
columns = 1

[[font]]
name = "odd"
cell = [2, 2]
replacement = 1
mapping = "AB"
atlas_width = 4
atlas = \'\'\'
#..# ..#.
.##.
\'\'\'
atlas_tail = "FF 00"

[style.label]
text_grey = 0
unused_background_grey = 7
underline = "text colour"

[style."a b"]
font = "odd"
line_height = "150%"
background_grey = 3

[[item]]
style = "label"
name = "stage"
x = 1
y = 2
text = "AA"
slot = 8

[[item]]
style = "a b"
x = 4
y = 3
missing_glyphs = true
lines = ["AB", """
A\\u0042 Z"""]
'''


def write_pair(folder, description=DESCRIPTION, font=FONT):
    """The description and its font in a folder."""
    for name, text in (("a.toml", description), ("font.txt", font)):
        (folder / name).write_bytes(text if isinstance(text, bytes) else text.encode("utf-8"))
    return folder / "a.toml"


def new(folder, description=DESCRIPTION, font=FONT):
    return sheet_tool("new", write_pair(folder, description, font), folder / "a.sheet")


# ---- errors: a change, and words of the line

DIGITS = "9" * 5_000
ODD_DESCRIPTIONS = [
    (lambda t: t.replace("width = 60", f"width = {DIGITS}"), "line 2: a number has too many digits"), (lambda t: "\ufeff" + t, "byte order mark"),
    (lambda t: t + "deep = " + "[" * 5_000 + "]" * 5_000, "nested too deeply"), (lambda t: t.replace("font.txt", "a\\u0000b"), "no name of a file"),
    (lambda t: t.replace('"150%"', f'"{DIGITS}%"'), "line 30: style 'a b': 'line_height' is"), (lambda t: t.encode("utf-16"), "not a text in UTF-8"),
    (lambda t: t.replace("height = 20", "height = 20\nheight = 20"), "no TOML"), (lambda t: t.replace("[frame]", "[frame]\n\0"), "no TOML"),
    (lambda t: t.replace("text_grey = 0", "text_grey = 300"), "line 24: style 'label': 'text_grey' must be"),
    (lambda t: t.replace('"text colour"', '"red"'), "line 26: style 'label': 'underline' is a grey"),
    (lambda t: t.replace('font = "odd"', 'font = "old"'), "line 29: style 'a b': there is no font 'old'"),
    (lambda t: t.replace("background_grey = 3", "ground = 3"), "line 31: style 'a b': 'ground' is no key"),
    (lambda t: t.replace("x = 4", "x = 4.5"), "line 43: item 1: 'x' must be"), (lambda t: t.replace("x = 4", ""), "line 41: item 1: 'x' is missing"),
    (lambda t: t.replace('name = "stage"', 'name = "a\\nb"\nfont = "q"'), "item 0 (a\\nb): there is no font 'q'"),
    (lambda t: t.replace('"AA"', '"AÄ"'), "line 38: item 0 (stage): font 'plain' has no glyph for U+00C4"),
    (lambda t: t.replace("unused_background_grey = 7", "unused_text_grey = 7"), "line 25: style 'label': 'unused_text_grey' is for a grey that is not used"),
    (lambda t: t.replace("[[item]]", "[style.v]\ntext_grey = 3\nunused_text_grey = 4\n[[item]]", 1), "line 35: style 'v': 'unused_text_grey' is for"),
    (lambda t: t.replace('name = "stage"', 'name = "stage"\nbackground_grey = 5'), "line 36: item 0 (stage): 'unused_background_grey' is for"),
    (lambda t: t.replace("#..# ..#.", "#..# ..#"), "row 1 of 'atlas' needs 4"), (lambda t: t.replace(".##.\n", ".#x.\n"), "row 2 of 'atlas'"),
    (lambda t: t.replace("FF 00", "FF 0"), "two hexadecimal digits"), (lambda t: t.replace("cell = [2, 2]", "cell = [2]"), "list of two numbers"),
    (lambda t: t.replace("cell = [2, 2]", ""), "'cell' is missing"), (lambda t: t.replace('mapping = "AB"', ""), "'mapping' is missing"),
    (lambda t: t.replace("atlas_width = 4", "atlas_width = 4\nfile = 'font.txt'"), "'file' is no key here"),
    (lambda t: t.replace("columns = 1", "bitmap = ''"), "in the place of 'file'"), (lambda t: t.replace("columns = 1", "spacing = 1"), "'spacing' is no key"),
    (lambda t: t.replace("[frame]", "[fame]"), "line 1: the description: 'fame' is no key"), (lambda t: "", "[frame] is missing"),
    (lambda t: t.replace("missing_glyphs = true", "missing_glyphs = 1"), "true or false"),
    (lambda t: t.replace("missing_glyphs = true", ""), "line 46: item 1: font 'odd' has no glyph for U+0020"),
    (lambda t: t.replace("width = 60\nheight = 20", "width = 512\nheight = 200"), "line 2: the sheet would be refused with 3"),
    (lambda t: t.replace("columns = 1\n", "columns = 1\n" + '[[font]]\nfile = "font.txt"\n' * 3), "line 17: the sheet would be refused with 4"),
    (lambda t: t + '[[item]]\nx = 0\ny = 0\ntext = ""\nslot = 1\n' * 63, "line 358: the sheet would be refused with 4"),
    (lambda t: t.replace('mapping = "AB"', 'mapping = "AB\\u0000\\U00010000\\U00020000"'), "line 15: the sheet would be refused with 8"),
    (lambda t: t.replace(".##.\n", ".##.\n" * 66_000), "a.toml: the sheet would be refused with 1"),
    (lambda t: t + "a" + ".a" * 100_000 + " = 1\n", "line 48: no description: a key has more than 16 parts"),
    (lambda t: t + "[" + ' . '.join(['"a b"'] * 17) + "]\n", "line 48: no description: a key has more than 16 parts"),
    (lambda t: t + "x = [\n1, { " + "'#\"'." * 20_000 + "b = 1 }]\n", "line 49: no description: a key has more than 16 parts"),
]
ODD_FONTS = [
    (lambda t: t + "cell 4 4\nglyph U+0042\n" + "....\n" * 4, "line 7: 'cell' stands once"),
    (lambda t: t.replace("cell 2 3", f"cell {DIGITS} 3"), "from 0 to 64"),
    (lambda t: t.replace("cell 2 3", "cell ² 3"), "from 0 to 64"), (lambda t: t.replace("cell 2 3", "cell 1_0 3"), "from 0 to 64"),
    (lambda t: t + "##\n", "line 7: a row outside a glyph"), (lambda t: t + ".#\n", "line 7: a row outside a glyph"),
    (lambda t: t + "\n#.\n", "line 8: a row outside a glyph"), (lambda t: "\ufeff" + t, "byte order mark"),
    (lambda t: t.encode("utf-16"), "not a text in UTF-8"),
    (lambda t: t.replace("glyph U+0041", "glyph U+" + "0" * 5_000 + "41"), "is no character"),
    (lambda t: t.replace("glyph U+0041", "glyph U+_41"), "is no character"),
    (lambda t: t.replace("glyph U+0041", "glyph U++41"), "is no character"), (lambda t: t.replace("replacement U+0041", "replacement"), "'none'"),
    (lambda t: t.replace("\n", "\r"), "line 1: 'cell' takes 2 numbers"), (lambda t: "", "the cell's size is missing"),
    (lambda t: t + "\0\n", "no word of a bitmap font"),
]


def test_odd_descriptions(folder):
    same("the good description", new(folder).status, 0)
    (folder / "a.sheet").unlink()
    for change, words in ODD_DESCRIPTIONS:
        expect_error(new(folder, change(DESCRIPTION)), 2 if words == "no name of a file" else 1, words)
    same("a sheet written in spite of an error", (folder / "a.sheet").exists(), False)
    return f"{len(ODD_DESCRIPTIONS)} descriptions"


def test_points_that_part_no_key(folder):
    """In strings, comments and bitmaps there may be any number of them; and a key of 16 parts is left to tomllib."""
    points = "A." * 40
    for change in (lambda t: t.replace('"AA"', f'"{points}"').replace("slot = 8", "slot = 80\nmissing_glyphs = true"),
                   lambda t: f"# {points}A = 1\n" + t.replace("x = 4", f"x = 4 # {points}A"), lambda t: t.replace('"stage"', f"\'\'\'\n{points}\n\'\'\'")):
        run = new(folder, change(DESCRIPTION))
        same(f"errors with {change(DESCRIPTION)[:80]!r}", (run.status, run.err), (0, ""))
    expect_error(new(folder, DESCRIPTION + ".".join("a" * 16) + " = 1\n"), 1, "'a' is no key here")


def test_odd_fonts(folder):
    for change, words in ODD_FONTS:
        expect_error(new(folder, font=change(FONT)), 1, words)
    return f"{len(ODD_FONTS)} fonts"


def test_rows_that_begin_with_a_number_sign(folder):
    """They are pixels among a glyph's rows; '#' lines elsewhere are comments."""
    font = "# a comment\n####\n#\ncell 2 3\n#cell 9 9\nreplacement U+0041\nglyph U+0041 #\n##\n#.\n##\n# the end\n\n#.. a comment too\n"
    same("new", new(folder, font=font).status, 0)
    atlas = (folder / "a.sheet").read_bytes()[24 + 28 * 4:][:3]
    same("rows", atlas, bytes((0xC0, 0x80, 0xC0)))


def test_long_files(folder):
    expect_error(sheet_tool("new", "/dev/zero", folder / "a.sheet"), 1, "longer than")
    expect_error(sheet_tool("explain", "/dev/full", "b"), 2, "unrecognized")
    run = sheet_tool("explain", "/dev/zero")
    same("explain of a long file", (run.status, "at byte 65536" in run.out), (1, True))


TOML = '''
a.b = 1
[[item]]
x = """
[[item]]
y = 2
"""
arr = [
 1, # ]
 "]", { k = 1 },
]
[item.sub]
k = 1
[[item.deep]]
z = 1
[[item.deep]]
z = '\'
[[item]]
x = 5 # x = 6
[ "q w" . 'z' ] # [c]
"k=1" = 3
'''


def test_lines_of_toml(_):
    """The line of each table and key, behind strings and arrays of several lines; of what stands inside another value, that value's line."""
    tomllib.loads(TOML)
    lines = toml_lines.Lines(TOML)
    for path, line in ((("a", "b"), 2), (("item", 0), 3), (("item", 0, "x"), 4), (("item", 0, "arr"), 8), (("item", 0, "sub"), 12), (("item", 0, "sub", "k"), 13),
                       (("item", 0, "deep", 0, "z"), 15), (("item", 0, "deep", 1, "z"), 17), (("item", 1), 18), (("item", 1, "x"), 19),
                       (("item", 1, "y"), 18), (("q w", "z"), 20), (("q w", "z", "k=1"), 21), (("item", 0, "arr", 2, "k"), 8), (("none",), None)):
        same(f"line of {path}", lines.of(path), line)


# ---- outputs

def test_inputs_are_kept(folder):
    shutil.copytree(ROOT / "samples", folder / "samples")
    toml, sheet, page = folder / "samples/greek.toml", folder / "samples/greek.sheet", folder / "samples/greek.pgm"
    font = folder / "samples/fonts/greek-8x12.txt"
    soft, hard, out = folder / "soft", folder / "hard", folder / "out"
    runs = []
    for path, words in ((toml, ("new", toml)), (font, ("new", toml)), (sheet, ("view", sheet)), (sheet, ("describe", sheet)),
                        (page, ("view", sheet, "--page", page))):
        soft.unlink(missing_ok=True)
        hard.unlink(missing_ok=True)
        soft.symlink_to(path)
        hard.hardlink_to(path)
        before = path.read_bytes()
        for target in (path, soft, hard, path.parent / ".." / path.parent.name / path.name):
            runs.append(sheet_tool(*words, target))
            expect_error(runs[-1], 2, "is an input")
            same(f"{path.name} after {words[0]}", path.read_bytes() == before, True)
    expect_error(sheet_tool("new", toml, out, "--header", toml), 2, "is an input")
    expect_error(sheet_tool("new", toml, out, "--header", out), 2, "two outputs")
    expect_error(sheet_tool("new", toml, out, "--header", folder / "samples/../out"), 2, "two outputs")
    same("an output in spite of an error", out.exists(), False)
    words = [sys.executable, str(ROOT / "tools/sheet"), "view", "-", str(sheet)]
    with open(sheet, "rb") as given:
        run = subprocess.run(words, stdin=given, capture_output=True, check=False)
    expect_error(Run(run.returncode, run.stdout, run.stderr.decode("utf-8")), 2, "is an input (standard input)")
    return f"{len(runs) + 4} runs"


def shell(folder, command, user=None, stdout=subprocess.PIPE, **variables):
    """One run of a command line in a folder, in which $sheet is the tool."""
    environment = {**os.environ, "sheet": str(ROOT / "tools/sheet"), **variables}
    run = subprocess.run(["bash", "-c", command], cwd=folder, env=environment, user=user, stdin=subprocess.DEVNULL, stdout=stdout, stderr=subprocess.PIPE,
                         check=False)
    return Run(run.returncode, run.stdout or b"", run.stderr.decode("utf-8"))


def files_in(folder):
    return {path: path.read_bytes() for path in folder.rglob("*") if path.is_file()}


def same_files(what, folder, before):
    """That a folder has these files, with these bytes."""
    after = files_in(folder)
    same(f"files changed by {what}", sorted(path.name for path in {**before, **after} if before.get(path) != after.get(path)), [])


def test_inputs_are_kept_from_standard_output(folder):
    shutil.copytree(ROOT / "samples", folder, dirs_exist_ok=True)
    before = files_in(folder)
    commands = ("describe greek.sheet >> greek.sheet", "describe greek.sheet 1<>greek.sheet", "new greek.toml - >> greek.toml",
                "new greek.toml - >> fonts/greek-8x12.txt", "new greek.toml a.sheet >> greek.toml", "show greek.sheet >> greek.sheet",
                "explain - <greek.sheet >> greek.sheet", "diff greek.sheet table.sheet >> table.sheet", "describe greek.sheet /dev/stdout >> greek.sheet",
                "view greek.sheet - --page greek.pgm 1<>greek.pgm")
    for command in commands:
        expect_error(shell(folder, f'"$sheet" {command}'), 2, "is an input")
        same_files(command, folder, before)
    same("another file", shell(folder, '"$sheet" explain greek.sheet >> a'), Run(0, b"", ""))
    return f"{len(commands)} commands"


def test_files_are_kept_on_errors(folder):
    """After an error each file is as it was, and none is added; every output is tried as the one that cannot be written."""
    shutil.copytree(ROOT / "samples", folder, dirs_exist_ok=True)
    for name in ("keep.sheet", "keep.h", "keep.toml", "keep.png"):
        (folder / name).write_bytes(name.encode())
    before = files_in(folder)
    commands = (("new greek.toml keep.sheet --header no/x.h", "no/x.h: No such"), ("new greek.toml no/x.sheet --header keep.h", "no/x.sheet: No such"),
                ("new greek.toml keep.sheet --header /dev/full", "/dev/full: No space"), ("new greek.toml keep.sheet --header fonts", "fonts: Is a directory"),
                ("new greek.toml keep.sheet --header keep.h > /dev/full", "standard output: No space"), ("new greek.toml keep.sheet >&-", "standard output"),
                ("new greek.toml keep.sheet --header - > /dev/full", "standard output: No space"), ("new greek.toml keep.sheet --header ''", "No such"),
                ("new greek.toml keep.sheet --header " + "a" * 300, "name too long"), ("new greek.toml keep.sheet/ --header keep.h", "Not a directory"))
    for command, words in commands:
        expect_error(shell(folder, f'"$sheet" {command}'), 2, words)
        same_files(command, folder, before)
    limited = ("describe hydrograph.sheet keep.toml", "new hydrograph.toml keep.sheet --header keep.h", "view hydrograph.sheet keep.png --page hydrograph.pgm")
    for command in limited:
        expect_error(shell(folder, f'ulimit -f 1; "$sheet" {command}'), 2, "File too large")
        same_files(command, folder, before)
    return f"{len(commands) + len(limited)} commands"


def test_permissions_and_links_are_kept(folder):
    sheet, link, far = folder / "a.sheet", folder / "link", folder / "far"
    wanted = (ROOT / "samples/greek.sheet").read_bytes()
    sheet.write_bytes(b"old")
    sheet.chmod(0o640)
    far.mkdir()
    link.symlink_to("far/middle")
    (far / "middle").symlink_to("../a.sheet")
    (folder / "open").symlink_to("far/new.sheet")
    for path in (sheet, link, folder / "open", folder / "fresh.sheet"):
        same(f"new into {path.name}", sheet_tool("new", ROOT / "samples/greek.toml", path).status, 0)
        same(f"bytes of {path.name}", path.read_bytes() == wanted, True)
        sheet.write_bytes(b"old" if path == sheet else wanted)
    same("links", (os.readlink(link), os.readlink(far / "middle"), os.readlink(folder / "open")), ("far/middle", "../a.sheet", "far/new.sheet"))
    mask = os.umask(0)
    os.umask(mask)
    modes = [path.stat().st_mode & 0o7777 for path in (sheet, far / "new.sheet", folder / "fresh.sheet")]
    same("permissions", modes, [0o640, 0o666 & ~mask, 0o666 & ~mask])
    same("files beside them", sorted(path.name for path in folder.rglob(".*")), [])
    if os.geteuid() == 0:
        os.chown(sheet, NOBODY, NOBODY)
        same("new into another's file", sheet_tool("new", ROOT / "samples/greek.toml", sheet).status, 0)
        same("its owner", (sheet.stat().st_uid, sheet.stat().st_gid, sheet.stat().st_mode & 0o7777), (NOBODY, NOBODY, 0o640))


def test_files_that_may_not_be_written(folder):
    """For a user who is not root: one of these is kept, though its folder takes new files; in a folder that takes none, an old file is written."""
    shutil.copytree(ROOT / "samples", folder, dirs_exist_ok=True)
    user, (locked, kept) = NOBODY if os.geteuid() == 0 else None, (folder / "locked", folder / "kept.sheet")
    locked.mkdir()
    (locked / "open.sheet").write_bytes(b"old")
    kept.write_bytes(b"old")
    for path, mode in ((folder, 0o777), (locked / "open.sheet", 0o666), (kept, 0o444), (locked, 0o555)):
        path.chmod(mode)
    if shell(folder, '"$sheet" --help', user).status != 0:
        return "another user cannot run the tool here"
    before = files_in(folder)
    for output in ("kept.sheet", "locked/new.sheet", "a.sheet --header kept.sheet"):
        expect_error(shell(folder, f'"$sheet" new greek.toml {output}', user), 2, "Permission denied")
        same_files(f"new into {output}", folder, before)
    same("new into a locked folder", shell(folder, '"$sheet" new greek.toml locked/open.sheet', user).status, 0)
    same("its bytes", (locked / "open.sheet").read_bytes() == (folder / "greek.sheet").read_bytes(), True)
    return None


def test_outputs_that_are_no_files(folder):
    """Pipes, devices and descriptors are written as they stand."""
    shutil.copytree(ROOT / "samples", folder, dirs_exist_ok=True)
    wanted = (folder / "greek.sheet").read_bytes()
    for command in ('"$sheet" new greek.toml /dev/stdout', '"$sheet" new greek.toml /dev/stdout | cat', '"$sheet" new greek.toml /dev/fd/1 > a; cat a',
                    'ln -s /dev/stdout link; "$sheet" new greek.toml link > a; cat a', 'mkfifo pipe; cat pipe & "$sheet" new greek.toml pipe > a; wait',
                    '"$sheet" new greek.toml /dev/fd/3 3>&1 > a', 'echo old > a; "$sheet" new greek.toml /dev/stdout > a; cat a'):
        same(command, shell(folder, command), Run(0, wanted, ""))
    same("no output", shell(folder, '"$sheet" new greek.toml /dev/null > a'), Run(0, b"", ""))
    expect_error(shell(folder, '"$sheet" new greek.toml - --header /dev/stdout'), 2, "two outputs")
    same("files beside them", sorted(path.name for path in folder.glob(".*")), [])


def test_outputs_that_take_a_part(folder):
    """Each output is whole, or an error is said in one line: with and without Python's own buffer."""
    shutil.copytree(ROOT / "samples", folder, dirs_exist_ok=True)
    commands = ("describe hydrograph.sheet", "show hydrograph.sheet", "view hydrograph.sheet - --page hydrograph.pgm", "new hydrograph.toml -")
    for command in commands:
        for variables in ({}, {"PYTHONUNBUFFERED": "1"}):
            expect_error(shell(folder, f'ulimit -f 1; "$sheet" {command} > a', **variables), 2, "standard output: File too large")
            expect_error(shell(folder, f'"$sheet" {command} > /dev/full', **variables), 2, "standard output: No space left")
    reader, closed = os.pipe()
    os.close(reader)
    for command in ('"$sheet" explain greek.sheet', 'head -c 100 hydrograph.sheet | "$sheet" show -', '"$sheet" --help', '"$sheet" new --help'):
        expect_error(shell(folder, f"{command} > /dev/full"), 2, "standard output: No space left")
        expect_error(shell(folder, f"{command} >&-"), 2, "standard output is closed")
        expect_error(shell(folder, command, stdout=closed), 2, "standard output: Broken pipe")
    os.close(closed)
    same("help", shell(folder, '"$sheet" --help').out.startswith(b"usage: sheet "), True)
    for command in ("show missing", "explain greek.sheet >&-", "draw"):
        same(f"{command} and a full standard error", shell(folder, f'"$sheet" {command} 2> /dev/full'), Run(2, b"", ""))


def test_start_of_the_program(folder):
    """Where Python does not look beside the program for its parts, and where it is interrupted while these load."""
    sheet = ROOT / "samples/greek.sheet"
    for words, variables in (("-I", {}), ("-P", {}), ("", {"PYTHONSAFEPATH": "1"})):
        run = shell(folder, f'"{sys.executable}" {words} "$sheet" explain "{sheet}"', **variables)
        same(f"python3 {words} {variables}", run, Run(0, f"{sheet}: accepted\n".encode(), ""))
    (folder / "link").symlink_to(ROOT / "tools/sheet")
    same("through a link", shell(folder, f'./link explain "{sheet}"').status, 0)
    shutil.copytree(ROOT / "tools", folder / "tools")
    parts = folder / "tools/station_sheet/__init__.py"
    parts.write_text("import os, signal, time\nos.kill(os.getpid(), signal.SIGINT)\ntime.sleep(9)\n" + parts.read_text(encoding="utf-8"), encoding="utf-8")
    expect_error(sheet_program("explain", sheet, tool=folder / "tools/sheet"), 2, "interrupted")


def test_standard_streams(folder):
    """'-' for each file, each run as a program."""
    toml, sheet, page = (ROOT / "samples" / f"greek.{kind}" for kind in ("toml", "sheet", "pgm"))
    data, inline = sheet.read_bytes(), sheet_program("describe", sheet).out
    same("new to -", sheet_program("new", toml, "-"), Run(0, data, ""))
    same("new from - to -", sheet_program("new", "-", "-", given=inline), Run(0, data, ""))
    run = sheet_program("new", toml, folder / "a.sheet", "--header", "-")
    same("header to -", (run.status, run.out.startswith(b"/* Made by"), b"#define GREEK_WIDTH 240\n" in run.out), (0, True, True))
    same("explain -", sheet_program("explain", "-", given=data), Run(0, b"standard input: accepted\n", ""))
    same("show -", sheet_program("show", "-", given=data).out, sheet_program("show", sheet).out)
    same("describe -", sheet_program("describe", "-", "-", given=data).out.split(b"\n", 1)[1], inline.split(b"\n", 1)[1])
    same("diff -", sheet_program("diff", "-", sheet, given=data), Run(0, b"", ""))
    png = sheet_program("view", sheet, "-", "--page", "-", given=page.read_bytes())
    same("view to -", sheet_program("view", sheet, folder / "a.png", "--page", page).status, 0)
    same("view from - to -", png, Run(0, (folder / "a.png").read_bytes(), ""))
    expect_error(sheet_program("diff", "-", "-", given=data), 2, "read once only")
    expect_error(sheet_program("new", toml, "-", "--header", "-"), 2, "two outputs")
    expect_error(sheet_program("show", "-", given=b""), 1, "refused with 1 at byte 0")
    for redirection, words in ((">&-", "standard output"), ("<&-", "standard input")):
        command = f'"{sys.executable}" "{ROOT}/tools/sheet" explain {"-" if words.endswith("input") else sheet} {redirection}'
        run = subprocess.run(["bash", "-c", command], stdin=subprocess.DEVNULL, capture_output=True, check=False)
        expect_error(Run(run.returncode, run.stdout, run.stderr.decode("utf-8")), 2, words)


# ---- warnings

WARNINGS = [
    (('name = "odd"', 'name = "plain"'), ("line 12: font 1: the name 'plain' is that of font 0",)),
    (("x = 4", 'x = 4\nname = "stage"'), ("line 44: item 1 (stage): the name is also that of item 0",)),
    (("x = 1\n", "x = 60\n"), ("line 33: item 0 (stage): lies off the frame of 60 by 20",)), (("y = 2\n", "y = 20\n"), ("item 0 (stage): lies off",)),
    (("y = 2\n", 'y = -30\nbaseline = "bottom"\n'), ("item 0 (stage): lies off the frame of 60 by 20: x is 1, y is -30",)),
    (("x = 1\n", 'x = -1\nalignment = "right"\n'), ("item 0 (stage): lies off",)), (("x = 1\n", "x = -9\n"), ("item 0 (stage): lies off",)),
    (('text = "AA"', 'text = "\\n"'), ("item 0 (stage): paints nothing on the frame: it lies off it, or its glyphs are blank",)),
    (("text_grey = 0\n", ""), ("item 0 (stage): paints nothing: its decorations",)),
    (("text_grey = 0\nunused_background_grey = 7\nunderline = \"text colour\"", ""), ("item 0 (stage): paints nothing: none of text_grey",)),
    (('text = "AA"\nslot = 8', 'text = ""'), ("paints nothing: it has no text",)), (('text = "AA"', 'text = ""'), ()),
    (("[style.label]", "[style.unknown]\n[style.label]"), ()),
]


def test_warnings(folder):
    copy_programs(folder / "bin")
    for (old, added), expected in WARNINGS:
        description = DESCRIPTION.replace('font = "odd"', "").replace("AB", "AA").replace("B Z", "A ") if "odd" in old else DESCRIPTION
        with programs_of(folder / "bin"):
            run = new(folder, description.replace(old, added, 1))
        same(f"status with {added!r}", run.status, 0)
        lines = run.err.splitlines()
        same(f"warnings with {added!r}: {lines}", len(lines), len(expected))
        for line, words in zip(lines, expected):
            if not line.startswith(f"sheet: warning: {folder / 'a.toml'}: ") or words not in line:
                raise AssertionError(f"{line!r}, and {words!r} is expected")
    run = new(folder, font=FONT.replace("cell 2 3", "spacing 1\ncell 1 1\nspacing 2\ncell 2 3\nreplacement none"))
    same("words that are there twice", [re.sub(r".*line (\d+): '(\w+)'.*", r"\1 \2", line) for line in run.err.splitlines()],
         ["3 spacing", "4 cell", "6 replacement"])
    return f"{len(WARNINGS) + 1} descriptions"


def test_no_warnings_for_samples(folder):
    for path in SAMPLES:
        same(f"warnings of {path.name}", sheet_tool("new", path, folder / "a.sheet").err, "")


def test_warnings_without_program(folder):
    """Without station_page one line says that; without station_items an item that paints nothing is told all the same."""
    odd = DESCRIPTION.replace("x = 1\n", "x = 60\n")
    copy_programs(folder / "bin")
    (folder / "bin/station_items").unlink()
    with programs_of(folder / "bin"):
        lines = new(folder, odd).err.splitlines()
    same("without station_items", (len(lines), "item 0 (stage): paints nothing on the frame: it lies off it" in lines[0]), (1, True))
    with programs_of(folder):
        lines = new(folder, odd).err.splitlines()
        same("without station_page", (len(lines), "'tools/build.sh station_page' makes it" in lines[0]), (1, True))
        same("without a text", new(folder, odd[:odd.index("[[item]]")]).err, "")


def test_places_off_the_frame(folder):
    """An item is told exactly if nothing of it is painted, by the model of the paper; as off the frame, if its measured box is."""
    chance, told = random.Random(SEED), {True: 0, False: 0}
    description = read_description(Files(), str(write_pair(folder)))
    copy_programs(folder / "bin")
    for _ in range(400):
        place = chance.choice((-40, -9, -1, 0, 30, 59, 60, 61, 90)), chance.choice((-40, -5, -1, 0, 10, 19, 20, 21, 22, 23, 40))
        item = chance.choice(description.items)
        item = item._replace(place=place, layout=(chance.randrange(3), chance.randrange(4), *item.layout[2:]))
        sheet = assemble((60, 20, 255), description.fonts, [item])
        with programs_of(folder / "bin"):
            oddity, painted = warning.drawing(item, description), set(paper_model.page(sheet)) != {255}
        same(f"told at {item.place} with {item.layout}", oddity is not None, not painted)
        box = paper_model.bounding_box(sheet, 0)[1:]
        if oddity is not None and box[2] and box[3]:
            same(f"the box at {item.place} with {item.layout}", "lies off the frame of 60 by 20" in oddity, paper_model.cut(box, 60, 20) is None)
        told[painted] += 1
    same("places told and not told", min(told.values()) > 50, True)
    return f"{told[False]} places of 400, seed {SEED}"


# ---- random edits

PARTS = [b"#", b".", b"\n", b"\r", b"\0", b"\xff", b"\xef\xbb\xbf", b'"', b"'", b"[", b"]", b"{", b"}", b"=", b"9" * 5_000, b"-1", b"1e5", b"true", b"nan",
         b"1979-05-27", b"[[item]]\n", b"[style.x]\n", b"cell 5 5\n", b"cell 0 0\n", b"cell 3 0\n", b"glyph U+0041\n", b"U+110000", b"U+D800", b'"""', b"'''",
         b"[[" * 300, b"[" * 3_000, b"{a=" * 2_000, b"\\u0000", b"\\uD800", b"font = 3\n", b"text = 5\n", b"\xc3", b"\xe2\x80\xa8", b"\x1b[0m", b"x = 99999\n",
         b"slot = 0\n", b"columns = 0\n", b"columns = 1024\n", b'file = "a\\u0000b"\n', b'file = "."\n', b'bitmap = ""\n', b'mapping = "\\u0000AZ"\n',
         b'name = "a\\nb"\n', b'style = "no"\n', b'text_grey = "x"\n', b"+", b"_", b" ", b"\t", b"replacement none\n", b"spacing 3\n"]
NUMBERS = (b"0", b"1", b"64", b"65", b"255", b"256", b"65536", b"-1", b"9" * 30, b"1.5", b'"a"', b"[1]", b"0x10")


def edited(data, chance):
    """A text with some random edits."""
    for _ in range(chance.choice((1, 1, 1, 2, 3, 8))):
        kind, at, lines = chance.randrange(7), chance.randrange(len(data) + 1), data.split(b"\n")
        number = chance.randrange(len(lines))
        if kind == 0:
            data = data[:at] + data[at + chance.choice((1, 1, 2, 10, 200)):]
        elif kind == 1:
            data = data[:at] + chance.choice(PARTS) + data[at:]
        elif kind == 2:
            data = data[:at] + bytes((chance.randrange(256),)) + data[at + 1:]
        elif kind in (3, 4, 5):
            lines[number:number + (0 if kind == 4 else chance.choice((1, 2, 7)))] = {3: [chance.choice(PARTS).strip(b"\n")],
                                                                                  4: [chance.choice(lines)], 5: []}[kind]
            data = b"\n".join(lines)
        elif found := list(re.finditer(rb"[0-9]+", data)):
            place = chance.choice(found)
            data = data[:place.start()] + chance.choice(NUMBERS) + data[place.end():]
    return data


def test_random_edits(folder):
    """Each run ends with a sheet that is accepted, or with one line and no other output. The programs are left out, for their time."""
    chance, counts = random.Random(SEED), {0: 0, 1: 0, 2: 0}
    pairs = [(DESCRIPTION.encode(), "font.txt", FONT.encode())] * 3
    for path in SAMPLES:
        toml = path.read_bytes()
        pairs += [(toml, name.decode(), (ROOT / "samples" / name.decode()).read_bytes()) for name in re.findall(rb'file = "(.*)"', toml)]
    shutil.copytree(ROOT / "samples/fonts", folder / "fonts")
    for k in range(EDITS):
        toml, name, font = chance.choice(pairs)
        (folder / "a.toml").write_bytes(edited(toml, chance) if k % 2 else toml)
        (folder / name).write_bytes(font if k % 2 else edited(font, chance))
        with programs_of(folder / "none"):
            run = sheet_tool("new", folder / "a.toml", folder / "a.sheet", "--header", folder / "a.h")
        (folder / name).write_bytes(font)
        counts[run.status] += 1
        lines = [line for line in run.err.splitlines() if run.status or "station_page is missing" not in line]
        if run.status != 0:
            expect_error(run, run.status, "")
        elif explain((folder / "a.sheet").read_bytes()) is not None or not all(line.startswith("sheet: warning: ") for line in lines):
            raise AssertionError(f"edit {k}: {run.err!r}")
        same(f"edit {k}: long lines", [line for line in lines if len(line) > 700], [])
    return f"{EDITS} edits, seed {SEED}: {counts[0]} built, {counts[1]} wrong, {counts[2]} files not read"


def test_random_sheets(folder):
    """Each command that reads a sheet, on random bytes and damaged samples."""
    chance, path = random.Random(SEED), folder / "a.sheet"
    samples = [sample.with_suffix(".sheet").read_bytes() for sample in SAMPLES]
    for k in range(200):
        data = bytearray(chance.choice(samples) if k % 4 else chance.randbytes(chance.randrange(120)))
        for _ in range(chance.randrange(4) if data else 0):
            data[chance.randrange(len(data))] = chance.randrange(256)
        path.write_bytes(data[:chance.randrange(len(data) + 1)] if k % 7 == 0 else data)
        refusal = explain(path.read_bytes())
        for words in (("show", path), ("describe", path, folder / "a.toml"), ("diff", path, path)):
            run = sheet_tool(*words)
            same(f"sheet {k}: {words[0]}", run.status, 0 if refusal is None else 2 if words[0] == "diff" else 1)
            if refusal is not None:
                same(f"sheet {k}: {words[0]}: lines", run.err.count("\n"), 1)
    return f"200 sheets, seed {SEED}"


def test_names_of_no_file(folder):
    """A name that no file system takes, and a folder."""
    expect_error(sheet_tool("explain", "a" * 5_000), 2, "File name too long")
    expect_error(sheet_tool("explain", os.fspath(folder)), 2, "directory")
