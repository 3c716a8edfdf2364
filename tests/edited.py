"""Tests of 'tools/sheet set' and 'edits', and of the program station_edits: the edited sheet and the rectangle are those of the model of the paper
(paper_model.py), by which the edits are made one by one, and after a refusal the sheet's file is the one that was there.

Usage: python3 tests/edited.py
writes crates/station_edits/stdin and stdout.
"""
import os
import random
import re
import shutil
import struct

import paper_model as model
from tool_runs import ROOT, SAMPLES, Run, copy_programs, expect_error, programs_of, said_by, said_into_full, same, sheet_program, sheet_tool
from wrong_inputs import files_in, same_files, shell
from station_sheet.describe import string
from station_sheet.difference import differences

SEED = 4127
LISTS = 250
TEXT, PLACE, STYLE = range(3)
HYDROGRAPH = ROOT / "samples/hydrograph.sheet"
# A reading on samples/greek.sheet: stage, discharge and time, a warning that is hidden, and a line that moves out of the frame.
READING = [(TEXT, 4, "2,47 m".encode()), (TEXT, 5, "52,3 m³/s".encode()), (TEXT, 10, "16.03.2031  06:15".encode()),
           (STYLE, 9, bytes((0, 0, 0, 200, 0, 0, 0, 0))), (PLACE, 8, (-300, 112))]


def entry(kind, item, data):
    """An edit as a list has it."""
    data = struct.pack("<ii", *data) if kind == PLACE else data
    return bytes((kind, item)) + len(data).to_bytes(2, "little") + data


def made_singly(sheet, edits):
    """The reply to a list of edits and the edited sheet, by the model: its edits one by one, up to the first that is refused."""
    sheet, areas, code = bytearray(sheet), [], 0
    for kind, item, data in edits:
        call = (model.set_text, model.set_place, model.set_style)[kind]
        code, *area = call(sheet, None, item, *(data if kind == PLACE else (data,)))
        if code:
            break
        areas.append(area)
    return (code, len(areas), *(model.join(areas) or (0, 0, 0, 0))), bytes(sheet)


def given_of(sheet, entries):
    """What station_edits reads."""
    return len(sheet).to_bytes(4, "little") + sheet + entries


def answer_of(sheet, edits):
    """What station_edits writes."""
    reply, edited = made_singly(sheet, edits)
    return " ".join(map(str, reply)).encode() + b"\n" + (edited if reply[0] == 0 else b"")


def stored_run():
    sheet = (ROOT / "samples/greek.sheet").read_bytes()
    return given_of(sheet, b"".join(entry(*edit) for edit in READING)), answer_of(sheet, READING)


# ---- random edits

WORDS = ["", "m", "2.347 m", "≈ 2,3", "41.8 m³/s", "Στάθμη", "a\nb\r\n", "\0", "longer than a slot of ten bytes"]


def random_edit(sheet, chance, most=255):
    """An edit that may be refused: with an item, a length or a place that is too large."""
    kind, items = chance.randrange(3), model.number(sheet, 8, 2)
    item = chance.randrange(items) if items and chance.random() < 0.95 else chance.randint(items, most)
    if kind == TEXT:
        return kind, item, chance.choice(WORDS).encode()
    if kind == PLACE:
        return kind, item, tuple(chance.choice((-32_768, -9, 0, 6, 34, 120, 245, 32_767, *[32_768, -32_769, 2**31 - 1] * (chance.random() < 0.1)))
                                 for _ in range(2))
    return kind, item, bytes(chance.choice(pair) for pair in zip(*[(0, 16, 0, 240, 0, 90, 0, 200), (1, 0, 1, 255, 2, 128, 1, 7)]))


def toml_of(edit):
    """The table of an edit."""
    kind, item, data = edit
    said = {TEXT: lambda: f"text = {string(data.decode())}", PLACE: lambda: f"place = [{data[0]}, {data[1]}]",
            STYLE: lambda: f"style = {{ {', '.join(f'{key} = {value}' for key, value in style_keys(data))} }}"}
    return f"[[edit]]\nitem = {item}\n{said[kind]()}\n"


def style_keys(style):
    """The keys of a style's bytes, with their values in TOML."""
    for key, mode, grey in zip(("text_grey", "background_grey", "underline", "strikethrough"), style[::2], style[1::2]):
        own = 1 if key.endswith("grey") else 2
        if mode:
            yield key, grey if mode == own else '"text colour"'
        if mode != own:
            yield f"unused_{key.removesuffix('_grey')}_grey", grey


# ---- the program

def test_stored_edits(_):
    """The program's stored input and output are those of the model."""
    same("stdin and stdout", tuple((ROOT / "crates/station_edits" / name).read_bytes() for name in ("stdin", "stdout")), stored_run())


def test_station_edits(_):
    """Random lists on the samples: the reply is the model's, and so is the sheet, if none of the edits is refused."""
    chance, codes = random.Random(SEED), set()
    for k in range(LISTS):
        sheet = chance.choice(SAMPLES).with_suffix(".sheet").read_bytes()
        edits = [random_edit(sheet, chance) for _ in range(chance.choice((0, 1, 2, 5, 12)))]
        answer = answer_of(sheet, edits)
        out, err = said_by("station_edits", given_of(sheet, b"".join(entry(*edit) for edit in edits)))
        same(f"list {k}: {edits}", (out, err), (answer, "" if answer.startswith(b"0 ") else "list refused\n"))
        codes.add(int(answer.split()[0]))
    same("codes that were met", codes, {0, 12, 13, 15})
    return f"{LISTS} lists, seed {SEED}"


def test_inputs_of_station_edits(folder):
    """Lists that are none, sheets that are refused, and inputs that are too short or too long, each with a line on standard error."""
    sheet = HYDROGRAPH.read_bytes()
    good, longest = entry(TEXT, 4, b"2.347 m"), entry(TEXT, 0, b"") * (65_536 // 4)
    refused = [(22, sheet, good + bad) for bad in (b"\0", b"\0\0\0", b"\0\4\1\0", b"\3\4\0\0", b"\xff\4\0\0", b"\1\4\7\0" + bytes(7), b"\1\4\11\0" + bytes(9))]
    refused += [(1, b"", b""), (1, b"", good), (1, sheet[:-1], good), (2, b"\2" + sheet[1:], b"\7"), (1, bytes(65_537), good), (1, bytes(70_000), good),
                (12, sheet, entry(TEXT, 27, b"")), (14, sheet, entry(TEXT, 4, b"\xe2\x86")), (16, sheet, entry(STYLE, 4, bytes(7)))]
    for code, given, entries in refused:
        same(f"refused with {code}", said_by("station_edits", given_of(given, entries)), (b"%d 0 0 0 0 0\n" % code, "list refused\n"))
    for given in (b"\1", b"\1\0\0\0", given_of(sheet, b"")[:-1], b"\xff\xff\xff\xff"):
        same(f"{len(given)} bytes", said_by("station_edits", given), (b"too short\n", "too short\n"))
    (_, _, *area), edited = made_singly(sheet, [(TEXT, 0, b"")])
    same("the longest list", said_by("station_edits", given_of(sheet, longest)), (b"0 16384 %d %d %d %d\n" % tuple(area) + edited, ""))
    for more in (1, 4, 100_000):
        same(f"{more} bytes more", said_by("station_edits", given_of(sheet, longest + bytes(more))), (b"too long\n", "too long\n"))
    (folder / "given").write_bytes(given_of(sheet, good))
    same("a full output", said_into_full("station_edits", folder / "given"), "sheet not written\n")
    return f"{len(refused) + 9} inputs"


# ---- good runs

def place_sheet(folder, source=HYDROGRAPH):
    shutil.copy(source, folder / "a.sheet")
    return folder / "a.sheet", source.read_bytes()


def expect_made(run, path, before, edits, warned=0):
    """That a run made these edits on a sheet's file, and said what they changed and their rectangle."""
    (code, made, *area), after = made_singly(before, edits)
    same("code", code, 0)
    same("status and warnings", (run.status, run.err.count("\n"), run.err.count("sheet: warning: ")), (0, warned, warned))
    if path.read_bytes() != after:
        raise AssertionError(f"{edits}: another sheet than the model's")
    where = "rectangle at ({}, {}), {} by {}".format(*area) if area[2] else "nothing to repaint"
    lines = [*differences(before, after), f"{path}: {made} edit{'s' * (made != 1)} made, {where}"]
    same("what is said", run.out.splitlines(), lines)


SETS = [
    ((4, "text", "2.347 m"), (TEXT, 4, b"2.347 m")), ((26, "text", "Air 7.4 °C\nDrawn"), (TEXT, 26, "Air 7.4 °C\nDrawn".encode())),
    ((4, "text", ""), (TEXT, 4, b"")), ((4, "text", "-5"), (TEXT, 4, b"-5")), ((4, "text", "--", "-m"), (TEXT, 4, b"-m")),
    ((21, "place", "30", "-5"), (PLACE, 21, (30, -5))), ((21, "place", "-32768", "32767"), (PLACE, 21, (-32_768, 32_767))),
    ((21, "style"), (STYLE, 21, bytes(8))), ((21, "style", "text_grey=0"), (STYLE, 21, bytes((1, 0, 0, 0, 0, 0, 0, 0)))),
    ((21, "style", "underline=text colour", "text_grey=16", "strikethrough=200", "unused_background_grey=7"),
     (STYLE, 21, bytes((1, 16, 0, 7, 1, 0, 2, 200)))),
    (("alarm", "text", "Alarm", "--names", ROOT / "samples/hydrograph.toml"), (TEXT, 21, b"Alarm")),
    (("stage bars 2.00 to 2.25", "place", 1, 2, "--names", ROOT / "samples/hydrograph.toml"), (PLACE, 13, (1, 2))),
]


def test_set(folder):
    for words, edit in SETS:
        path, before = place_sheet(folder)
        expect_made(sheet_tool("set", path, *words), path, before, [edit])
    path, before = place_sheet(folder)
    run = sheet_tool("set", path, 4, "text", "≈2 µ")
    expect_made(run, path, before, [(TEXT, 4, "≈2 µ".encode())], 1)
    same("characters that the font has not", run.err, f"sheet: warning: {path}: item 4: not listed: U+2248, U+00B5\n")
    same("a place of that item", sheet_tool("set", path, 4, "place", 5, 36).err, "")
    return f"{len(SETS) + 1} edits"


def test_edits(folder):
    """Keys in each form, an edit that moves an item which an earlier one hid, and a list without an edit."""
    toml = folder / "a.toml"
    for text, edits in (("", []), ('[[edit]]\nitem = 26\nlines = ["Air", "Drawn"]\n', [(TEXT, 26, b"Air\nDrawn")]),
                        ('[[edit]]\nitem = 21\n[edit.style]\nunderline = 5\n[[edit]]\nplace = [3, -4]\nitem = 21\n[[edit]]\nitem = 21\ntext = ""\n',
                         [(STYLE, 21, bytes((0, 0, 0, 0, 2, 5, 0, 0))), (PLACE, 21, (3, -4)), (TEXT, 21, b"")])):
        path, before = place_sheet(folder)
        toml.write_text(text, encoding="utf-8")
        expect_made(sheet_tool("edits", path, toml), path, before, edits)
    path, before = place_sheet(folder)
    toml.write_text('[[edit]]\nitem = "stage"\ntext = "2 m"\n[[edit]]\nitem = 6\ntext = "3 m"\n', encoding="utf-8")
    run = sheet_tool("edits", path, toml, "--names", ROOT / "samples/hydrograph.toml")
    expect_made(run, path, before, [(TEXT, 4, b"2 m"), (TEXT, 6, b"3 m")])


def test_day_of_edits(folder):
    """Each day of edits of samples/ as one list."""
    made = []
    for name in ("hydrograph", "georgian"):
        path, before = place_sheet(folder, ROOT / f"samples/{name}.sheet")
        edits = []
        for line in (ROOT / f"samples/{name}.day").read_text(encoding="utf-8").splitlines():
            if text := re.fullmatch(r'text (\d+) "(.*)"', line):
                edits.append((TEXT, int(text[1]), text[2].replace("\\n", "\n").encode()))
            elif numbers := re.fullmatch(r"(place|style) (\d+) ([-0-9 ]+)", line):
                values = tuple(map(int, numbers[3].split()))
                edits.append((PLACE, int(numbers[2]), values) if numbers[1] == "place" else (STYLE, int(numbers[2]), bytes(values)))
        (folder / "day.toml").write_text("".join(map(toml_of, edits)), encoding="utf-8")
        expect_made(sheet_tool("edits", path, folder / "day.toml"), path, before, edits)
        made.append(len(edits))
    return f"{made[0]} and {made[1]} edits"


def test_random_lists(folder):
    """A list is made as the model has it; or the first edit that is refused is named, and the sheet's file is the one that was there."""
    chance, counts, toml = random.Random(SEED + 1), {False: 0, True: 0}, folder / "a.toml"
    for _ in range(LISTS):
        path, before = place_sheet(folder, chance.choice(SAMPLES).with_suffix(".sheet"))
        edits = [random_edit(before, chance) for _ in range(chance.choice((1, 2, 5, 12)))]
        toml.write_text("".join(map(toml_of, edits)), encoding="utf-8")
        code, made = made_singly(before, edits)[0][:2]
        counts[code == 0] += 1
        run = sheet_tool("edits", path, toml)
        if code == 0:
            expect_made(run, path, before, edits, run.err.count("\n"))
            same("warnings", re.sub(r"(?m)^sheet: warning: .*: item \d+: not listed: U\+.*\n", "", run.err), "")
        else:
            expect_error(run, 1, f"sheet: {toml}: line {3 * made + 1}: edit {made}: refused with {code}: ")
            same("the sheet", path.read_bytes() == before, True)
    same("lists that were made and refused", min(counts.values()) > 30, True)
    return f"{counts[True]} made, {counts[False]} refused, seed {SEED + 1}"


# ---- refusals

REFUSED = [
    ((27, "text", "m"), 12, "there is no item 27: the sheet's items are 27, numbered from 0"),
    ((255, "place", 1, 2), 12, "there is no item 255"), ((99, "style"), 12, "there is no item 99"),
    ((4, "text", "sensor fault"), 13, "the text has 12 bytes, and item 4's slot 10"), ((4, "text", "m" * 65_532), 13, "the text has 65532 bytes"),
    ((4, "text", os.fsdecode(b"2.3 \xe2\x86")), 14, "the text has an ill-formed sequence, E2 86 and then the end"),
    ((4, "text", os.fsdecode(b"\xff")), 14, "the text has an ill-formed sequence, FF"),
    ((4, "place", 32_768, 0), 15, "the place (32768, 0) is outside -32768 to 32767"), ((4, "place", 0, -32_769), 15, "the place (0, -32769)"),
    ((4, "place", -2**31, 2**31 - 1), 15, "the place (-2147483648, 2147483647)"),
]


def same_sheet(path, before, status):
    """That a sheet's file is as it was: the same file with the same bytes, and nothing beside it."""
    now = path.stat()
    same("the sheet's file", (path.read_bytes() == before, now.st_ino, now.st_mtime_ns), (True, status.st_ino, status.st_mtime_ns))
    same("files beside it", [other.name for other in path.parent.iterdir() if other.name.startswith(".")], [])


def test_refused_edits(folder):
    """By 'set', and in a list behind two edits that were made and before one that would be."""
    path, before = place_sheet(folder)
    status, toml = path.stat(), folder / "a.toml"
    for words, number, cause in REFUSED:
        expect_error(sheet_tool("set", path, *words), 1, f"sheet: the edit: refused with {number}: {cause}")
        item, kind, *values = words
        if number != 14:
            value = {"text": lambda: string(values[0]), "place": lambda: str(values), "style": lambda: "{}"}[kind]()
            toml.write_text(f'[[edit]]\nitem = 4\ntext = "2 m"\n\n[[edit]]\nitem = 21\nplace = [1, 2]\n\n[[edit]]\nitem = {item}\n{kind} = {value}\n\n'
                            '[[edit]]\nitem = 6\ntext = "3 m"\n', encoding="utf-8")
            if len(toml.read_bytes()) < 60_000:
                expect_error(sheet_tool("edits", path, toml), 1, f"{toml}: line 9: edit 2: refused with {number}: {cause}")
        same_sheet(path, before, status)
    return f"{len(REFUSED)} edits"


def test_edits_of_refused_sheets(folder):
    """Each refusal of a sheet is said as 'explain' says it, before any edit."""
    _, before = place_sheet(folder)
    toml, path = folder / "a.toml", folder / "bad.sheet"
    toml.write_text('[[edit]]\nitem = 4\ntext = "2 m"\n', encoding="utf-8")
    for damaged, number in ((before[:-1], 1), (b"\2" + before[1:], 2), (before[:24 + 28 * 2 + 28 * 4 + 21] + b"\7" + before[24 + 28 * 6 + 22:], 9)):
        path.write_bytes(damaged)
        status = path.stat()
        expect_error(sheet_tool("set", path, 4, "text", "2 m"), 1, f"{path}: refused with {number} at byte ")
        expect_error(sheet_tool("edits", path, toml), 1, f"{path}: refused with {number} at byte ")
        same_sheet(path, damaged, status)


# ---- wrong commands and lists

WRONG_WORDS = [
    ((4,), "required"), ((4, "text"), "an edit is 'text TEXT'"), ((4, "text", "2", "m"), "an edit is 'text TEXT'"), ((4, "place", 1), "'place X Y'"),
    ((4, "place", 1, 2, 3), "'place X Y'"), ((4, "font", "large"), "an edit is"), ((256, "text", "m"), "'item' must be a whole number from 0 to 255"),
    ((-1, "text", "m"), "'item' must be a whole number from 0 to 255"), (("9" * 5_000, "text", "m"), "is no number of an item"),
    (("stage", "text", "m"), "'stage' is no number of an item; with '--names DESCRIPTION.toml'"), ((4, "place", 1, 2**31), "from -2147483648 to 2147483647"),
    ((4, "place", -2**31 - 1, 0), "from -2147483648 to 2147483647"), ((4, "place", "left", 0), "'place' must be a whole number"),
    ((4, "place", "1.5", 0), "'place' must be a whole number"), ((4, "text", "m" * 65_536), "the text has 65536 bytes, and an entry of a list takes at most 65535"),
    ((4, "style", "text_grey"), "'text_grey': a style is KEY=VALUE"), ((4, "style", "text_grey=1", "text_grey=2"), "each key once"),
    ((4, "style", "text_grey=256"), "'text_grey' must be a whole number from 0 to 255"), ((4, "style", "text_grey=black"), "'text_grey' must be a whole number"),
    ((4, "style", "underline=red"), "'underline' is a grey or \"text colour\""), ((4, "style", "alignment=left"), "'alignment' is no key here"),
    ((4, "style", "text_grey=1", "unused_text_grey=2"), "'unused_text_grey' is for a grey that is not used"), ((4, "text", "-x"), "unrecognized"),
    (("none", "text", "m", "--names", ROOT / "samples/hydrograph.toml"), "there is no item 'none'"),
    (("", "text", "m", "--names", ROOT / "samples/hydrograph.toml"), "there is no item ''"),
]
EDIT = "[[edit]]\nitem = 4\n"
WRONG_LISTS = [
    ("[[edit]", "no TOML"), ("[edit]\nitem = 4\ntext = ''\n", "line 1: the list of edits: write 'edit' as [[edit]]"), ("edit = [1]\n", "line 1: edit 0 must be a table"),
    ("[[edits]]\n", "a.toml: the list of edits: 'edits' is no key here; the keys are edit"), (EDIT, "line 1: edit 0: an edit has one of text, lines, place, style"),
    (EDIT + "text = ''\nplace = [1, 2]\n", "an edit has one of"), (EDIT + "text = ''\nlines = []\n", "an edit has one of"),
    (EDIT + "text = 5\n", "line 3: edit 0: 'text' must be a string"), (EDIT + "lines = 'a'\n", "line 3: edit 0: 'lines' is a list of strings"),
    (EDIT + "x = 5\n", "line 3: edit 0: 'x' is no key here"), (EDIT + "place = 5\n", "line 3: edit 0: 'place' is a list of two numbers"),
    (EDIT + "place = [1, 2, 3]\n", "'place' is a list of two numbers"), (EDIT + "place = [1, 2.5]\n", "line 3: edit 0: 'place' must be a whole number"),
    (EDIT + "place = [1, 2147483648]\n", "from -2147483648 to 2147483647"), (EDIT + "place = [true, 1]\n", "'place' must be a whole number"),
    (EDIT + "style = 'label'\n", "line 3: edit 0: style must be a table"), (EDIT + "style = { ink = 1 }\n", "line 3: edit 0: style: 'ink' is no key here"),
    (EDIT + "[edit.style]\ntext_grey = 300\n", "line 4: edit 0: style: 'text_grey' must be"), (EDIT.replace("4", "256") + "text = ''\n", "line 2: edit 0: 'item' must be"),
    (EDIT.replace("4", "-1") + "text = ''\n", "from 0 to 255"), (EDIT.replace("4", "4.0") + "text = ''\n", "'item' must be a whole number"),
    ("[[edit]]\ntext = 'm'\n", "line 1: edit 0: 'item' is missing"), (EDIT.replace("4", "'stage'") + "text = ''\n", "line 2: edit 0: 'stage' is no number of an item"),
    (EDIT + f"text = '{'m' * 65_536}'\n", "line 3: edit 0: the text has 65536 bytes"), (EDIT + f"text = '{'m' * 65_535}'\n", "the list takes 65539 bytes, and station_edits 65536"),
    ((EDIT + "text = ''\n") * 16_385, "the list takes 65540 bytes"), ("\ufeff" + EDIT, "byte order mark"), (EDIT + "text = '\xff'\n", "UTF-8"),
    ("a" + ".a" * 20 + " = 1\n", "line 1: no list of edits: a key has more than 16 parts"), ("a = " + "[" * 5_000 + "]" * 5_000, "no list of edits: its lists"),
    (EDIT + f"place = [{'9' * 5_000}, 1]\n", "line 3: a number has too many digits"),
]


def test_wrong_edits(folder):
    path, before = place_sheet(folder)
    status, toml, missing = path.stat(), folder / "a.toml", folder / "missing"
    for words, expected in WRONG_WORDS:
        expect_error(sheet_tool("set", path, *words), 2, expected)
        same_sheet(path, before, status)
    for text, expected in WRONG_LISTS:
        toml.write_bytes(text.encode("latin-1" if expected == "UTF-8" else "utf-8"))
        expect_error(sheet_tool("edits", path, toml), 1, expected)
        same_sheet(path, before, status)
    for words in (("set", missing, 4, "text", "m"), ("edits", missing, toml), ("edits", path, missing), ("set", path, 4, "style", "--names", missing)):
        expect_error(sheet_tool(*words), 2, "missing: No such file")
    return f"{len(WRONG_WORDS)} commands, {len(WRONG_LISTS)} lists"


def test_names_of_items(folder):
    """A description of another sheet has no names for this one; what edits change may differ. A name that two items have is neither's."""
    path, before = place_sheet(folder)
    shutil.copytree(ROOT / "samples/fonts", folder / "fonts")
    toml, text = folder / "hydrograph.toml", (ROOT / "samples/hydrograph.toml").read_text(encoding="utf-8")
    words = ("set", path, "stage", "text", "2 m", "--names", toml)
    for old, new in (("paper = 252", "paper = 251"), ("slot = 10\n", "slot = 9\n"), ("figures-12x20", "plain-6x10"), ('"alarm"', '"alarm"\nalignment = "right"')):
        toml.write_text(text.replace(old, new), encoding="utf-8")
        expect_error(sheet_tool(*words), 1, f"{toml}: it describes another sheet")
    font = folder / "fonts/plain-6x10.txt"
    toml.write_text(text, encoding="utf-8")
    font.write_text(font.read_text(encoding="utf-8").replace(".#", "##", 1), encoding="utf-8")
    expect_error(sheet_tool(*words), 1, f"{toml}: it describes another sheet")
    shutil.copy(ROOT / "samples/fonts" / font.name, font)
    toml.write_text(text.replace('name = "alarm"', 'name = "stage"'), encoding="utf-8")
    expect_error(sheet_tool(*words), 2, "the name 'stage' is that of 2 items")
    toml.write_text(text.replace("2.314 m", "2.1 m").replace("x = 5\n", "x = 6\n").replace("text_grey = 0", "text_grey = 9"), encoding="utf-8")
    expect_made(sheet_tool(*words), path, before, [(TEXT, 4, b"2 m")])


# ---- files

def test_edited_file(folder):
    """The edited sheet takes its place behind a link, with its permissions; it is neither written over by what is said nor half written."""
    path, before = place_sheet(folder)
    path.chmod(0o640)
    (folder / "link").symlink_to("a.sheet")
    expect_made(sheet_tool("set", folder / "link", 4, "text", "2 m"), folder / "link", before, [(TEXT, 4, b"2 m")])
    same("link and permissions", (os.readlink(folder / "link"), path.stat().st_mode & 0o7777), ("a.sheet", 0o640))
    (folder / "a.toml").write_text('[[edit]]\nitem = 4\ntext = "3 m"\n', encoding="utf-8")
    shutil.copytree(ROOT / "samples/fonts", folder / "fonts")
    shutil.copy(ROOT / "samples/hydrograph.toml", folder)
    before = files_in(folder)
    commands = (("set a.sheet 4 text m >> a.sheet", "standard output: this file is an input (a.sheet)"), ("edits a.sheet a.toml >> a.toml", "is an input (a.toml)"),
                ("set a.sheet 4 text m 1<> a.sheet", "is an input (a.sheet)"), ("edits a.sheet a.toml > /dev/full", "standard output: No space"),
                ("set a.sheet 4 text m >&-", "standard output"), ("set a.sheet stage text m --names hydrograph.toml >> hydrograph.toml", "is an input"),
                ("set /dev/stdin 4 text m < a.sheet", "/dev/stdin: no file, and so no sheet that can be edited"),
                ("edits - - < a.sheet", "read once only"), ("set - 4 text m < a.sheet >> a.sheet", "is an input (standard input)"))
    for command, words in commands:
        expect_error(shell(folder, f'"$sheet" {command}'), 2, words)
        same_files(command, folder, before)
    expect_error(shell(folder, 'ulimit -f 1; "$sheet" set a.sheet 4 text m'), 2, "File too large")
    same_files("set with a limit", folder, before)
    return f"{len(commands) + 1} commands"


def test_edits_from_standard_input(folder):
    """'-' for the sheet, which is then written to standard output, and for the list."""
    path, before = place_sheet(folder)
    wanted = made_singly(before, [(TEXT, 4, b"2 m")])[1]
    same("set -", sheet_program("set", "-", 4, "text", "2 m", given=before), Run(0, wanted, ""))
    toml = '[[edit]]\nitem = 4\ntext = "2 m"\n'
    (folder / "a.toml").write_text(toml, encoding="utf-8")
    same("edits -", sheet_program("edits", "-", folder / "a.toml", given=before), Run(0, wanted, ""))
    run = sheet_program("edits", path, "-", given=toml.encode())
    same("edits from -", (run.status, path.read_bytes() == wanted, run.out.count(b"\n")), (0, True, 2))
    expect_error(sheet_program("edits", path, "-", given=toml.replace("4", "99").encode()), 1, "standard input: line 1: edit 0: refused with 12")
    expect_error(sheet_program("set", "-", 99, "text", "2 m", given=before), 1, "refused with 12")


def test_edits_without_program(folder):
    """Without station_edits; and with one that refuses another edit than the tool, or writes something else."""
    path, before = place_sheet(folder)
    status, program = path.stat(), folder / "bin/station_edits"
    copy_programs(folder / "bin")
    program.unlink()
    with programs_of(folder / "bin"):
        expect_error(sheet_tool("set", path, 4, "text", "2 m"), 2, "target/bin/station_edits is missing: make it with 'tools/build.sh station_edits'")
        for script, words in (("echo 12 0 0 0 0 0", "the edit: target/bin/station_edits refuses it with 12, and the tool finds no fault in it"),
                              ("exit 3", "ended with status 3"), ("echo too long", "something else"), ("echo 0 1 0 0 0 0; echo", "something else"),
                              ("echo 0 0 0 0 0 0; head -c 3740 | tail -c 3736", "something else"), ("echo 12 1 0 0 0 0", "something else"), ("echo 12 0 0 0 0 0; cat", "something else"),
                              ("echo 0 1 0 0 0 0; head -c 3736 /dev/zero", "something else"), ("echo 0 1 0 0 0", "something else")):
            program.write_text(f"#!/bin/sh\n{script}\n", encoding="ascii")
            program.chmod(0o755)
            expect_error(sheet_tool("set", path, 4, "text", "2 m"), 2, words)
            same_sheet(path, before, status)
        program.write_text("#!/bin/sh\necho 13 0 0 0 0 0\n", encoding="ascii")
        expect_error(sheet_tool("set", path, 99, "text", "2 m"), 2, "refuses it with 13, and the tool finds 12: there is no item 99")


def main():
    for name, data in zip(("stdin", "stdout"), stored_run()):
        (ROOT / "crates/station_edits" / name).write_bytes(data)


if __name__ == "__main__":
    main()
