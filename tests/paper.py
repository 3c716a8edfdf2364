"""Holds docs/SHEET.md to the definitions, the header and the tools, its examples to a model that follows it (paper_model.py), and that model to the stored answers.

    python3 tests/paper.py [references]

Each test prints 'ok NAME' or 'FAILED NAME' with what differs. The last line is 'N passed, M failed', and the exit status is 1 if one failed. With
'references' one more test is made: that no other file cites a paper which is not in the repository.
"""
import glob
import hashlib
import itertools
import math
import os
import re
import subprocess
import sys

sys.dont_write_bytecode = True
os.chdir(os.path.join(os.path.dirname(os.path.abspath(__file__)), ".."))
sys.path.insert(0, "tools")
import joined_runs  # noqa: E402
import paper_model as model  # noqa: E402
from station_sheet import bdf, explain, layout  # noqa: E402
from station_sheet.description import FontPart, ItemPart, assemble  # noqa: E402
from station_sheet.show import decoration, grey  # noqa: E402

PAPER, DEMANDS = "docs/SHEET.md", "docs/DEMANDS.md"
TITLES = ["Numbers and bytes", "Geometry", "Characters", "Mapping", "Atlas", "One line", "Text", "Replaced characters", "Stop below the frame", "Joining strings",
          "Ink", "Sheet", "Drawing and edits", "A list of edits", "Page and host", "Fonts from BDF", "Replies and refusals", "Worked examples", "How far to trust this"]
# of the demands and of the rules, which stay as they were given: those of a section that was added later by themselves, and the sentence that one of
# these replaced put back
RULES_SHA256 = "df7653ae1b5fa7c823a8a3e8267ee0a349ff420aeddfc030918767c02936e3b3"
ADDED_SHA256 = {"Fonts from BDF": "3003de7df8c001d7575b8bc67b8094a0c026d0731d9fecd9eea926e9634203e9",
                "Replaced characters": "31924ba9b6b14562230a5e14e69e8a9307ea06577f6231a310bd952e786666de",
                "Stop below the frame": "d95a91b7401f9c79495d9311c621255ebd6852a81e5312e5a2307e84e587fc98",
                "Joining strings": "b4ba52a891e698318f73a8bf46aa8b1bdb924604c122c3047ab0b824fbe1c3bd",
                "Ink": "bea9cc321da51bb6368e294ca1a892b241069dd465485ad2f140ebdbdaffeecd",
                "A list of edits": "aaa70207e9f7d091a1bc2096992e3b0d153966fb27e85b7393a81ee2d7ec2c54"}
# what stood before the sentence that the rule of section Ink replaced, and that sentence
REPLACED_RULE = ("new bytes 13 to 20 of an item.", "A line's ink box starts at its x and top edge, is its advance wide, and max(ch, each decoration's offset + height) high.")
DEMANDS_SHA256 = "81032766de38756c2c69d7a4e908163f27ada3da2dabedc28dca7e1ffc7a224a"


def read(path):
    with open(path, encoding="utf-8") as f:
        return f.read()


def spread(text):
    """A text in which white space, and the bars of quotations, do not matter."""
    return " ".join(re.sub(r"^> ?", "", text, flags=re.M).split())


def integer(text):
    return int(text.replace(",", "").replace("_", "").replace("−", "-"))


def hex_bytes(text):
    return bytes.fromhex("" if text == "(none)" else text)


# ---- the paper: its sections, tables and set-off blocks

def sections():
    found = re.split(r"^## (.*)\n", read(PAPER), flags=re.M)
    return dict(zip(found[1::2], found[2::2]))


SECTIONS = sections()


def tables(title):
    """The tables of a section: the names of the columns, and the rows."""
    found, rows = [], []
    for line in SECTIONS[title].split("\n") + [""]:
        if line.startswith("|"):
            rows.append([cell.strip() for cell in line.strip("|").split("|")])
        elif rows:
            found.append((rows[0], rows[2:]))
            rows = []
    return found


def table(title, columns, which=0):
    return [rows for head, rows in tables(title) if head == columns][which]


def blocks(title, after):
    """The set-off blocks below a heading of a section, each with its kind."""
    part = re.split(r"^### ", SECTIONS[title].split("### " + after + "\n")[1], flags=re.M)[0]
    return re.findall(r"^```(\w+)\n(.*?)^```", part, flags=re.M | re.S)


# ---- tests: each gives the differences that it finds

TESTS = []


def test(name):
    def add(function):
        TESTS.append((name, function))
        return function
    return add


def differences(found, wanted, what=""):
    return [] if found == wanted else [f"{what}{found!r}, and not {wanted!r}"]


@test("the paper has its sections, in order")
def titles():
    return differences(list(SECTIONS), TITLES)


@test("the demands are quoted unchanged")
def demands():
    quoted = " ".join(line[2:] for line in read(DEMANDS).split("\n") if line.startswith("> "))
    return differences(hashlib.sha256(quoted.encode()).hexdigest(), DEMANDS_SHA256, "sha256 of the quotations: ")


@test("the rules are unchanged in their short form")
def rules():
    def set_off(texts):
        return " ".join(spread(rule) for text in texts for rule in re.findall(r"(?:^>.*\n)+", text, flags=re.M))

    def sha256(text):
        return hashlib.sha256(text.encode()).hexdigest()
    before, sentence = REPLACED_RULE
    given = set_off(text for title, text in SECTIONS.items() if title not in ADDED_SHA256).replace(before, f"{before} {sentence}")
    bad = differences(sha256(given), RULES_SHA256, "sha256 of the rules: ")
    return bad + [d for title, wanted in ADDED_SHA256.items() for d in differences(sha256(set_off([SECTIONS[title]])), wanted, f"sha256 of the rules of {title}: ")]


@test("each definition and theorem that the paper names is there")
def names():
    def defines(path, name):
        return os.path.exists(path) and re.search(rf"^ *(?:\w+ )*{re.escape(name)} :|^pub (?:record|data) {re.escape(name)}\b", read(path), re.M)
    bad = []
    for title, text in SECTIONS.items():
        for path, named in re.findall(r"`(crates/[^`]*\.antt)`\s\(([^)]*)\)", text):
            for name in re.findall(r"`([^`]+)`", named):
                if not defines(path, name):
                    others = [p for p in glob.glob("crates/*/%s/*.antt" % path.split("/")[2]) if defines(p, name)]
                    bad.append(f"{title}: {name} is not in {path}, but in {', '.join(others) or 'no file'}")
        bad += [f"{title}: {path}" for path in re.findall(r"`([\w/]+\.(?:rt|md|sh|h))`", text) if not os.path.exists(path)]
        for label in ("Definition:", "Theorem:"):
            if title != TITLES[-1] and label not in text:
                bad.append(f"{title}: no {label}")
    return bad


# ---- byte tables

FIELD_COLUMNS = ["offset", "size", "field", "definition", "meaning", "must be", "else"]
WIDTHS = {"u8": 1, "byte_at": 1, "u16": 2, "le16_at": 2, "u32": 4, "le32_at": 4}
TOOL_NAMES = {"frame width": "width", "frame height": "height", "paper grey": "paper", "fonts offset": "fonts_at", "items offset": "items_at",
              "whole length": "length", "atlas offset": "atlas_at", "mapping offset": "mapping_at", "replacement index": "replacement",
              "cell width": "cw", "cell height": "ch", "spacing": "s", "slot offset": "slot_at", "font number": "font"}
PARTS = (("header", 0, layout.HEADER_SIZE, layout.HEADER_FORM, layout.Header), ("font", 1, layout.FONT_SIZE, layout.FONT_FORM, layout.Font),
         ("item", 2, layout.ITEM_SIZE, layout.ITEM_FORM, layout.Item))


def defined_fields():
    """The fields of Fields.antt: name to offset and size."""
    source = read("crates/sheet/specs/Fields.antt")
    places = {name: integer(n) for name, n in re.findall(r"^(\w+) o = o \+ (\d+)$", source, re.M)}
    found = {}
    for name, width, at in re.findall(r"^(\w+) b(?: o)? = (\w+) b (.+)$", source, re.M):
        if width in WIDTHS and name not in WIDTHS:
            plus = re.fullmatch(r"\(o \+ (\d+)\)", at)
            named = re.fullmatch(r"\((\w+) o\)", at)
            offset = int(plus[1]) if plus else places[named[1]] if named else 0 if at == "o" else int(at)
            found[name] = (offset, WIDTHS[width])
    return found


def rows_of(which):
    return [(int(row[0]), int(row[1]), *row[2:]) for row in table("Sheet", FIELD_COLUMNS, which)]


@test("the byte tables leave no gap")
def gaps():
    bad = []
    for name, which, size, _, _ in PARTS:
        at = 0
        for row in rows_of(which):
            bad += differences(row[0], at, f"{name}, {row[2]}: offset ")
            at = row[0] + row[1]
        bad += differences(at, size, f"{name}: size ")
    return bad


def value(formula, names):
    """The value of a sum of products, with a number for each name."""
    return sum(math.prod(names[part] if part in names else integer(part) for part in term.split(" × ")) for term in formula.split(" + "))


@test("numbers are stored as the table says")
def stored_numbers():
    rows = {row[0]: row[2] for row in table("Numbers and bytes", ["stored as", "bytes at offset o", "value"])}
    signed = re.fullmatch(r"with n = (.*): n if n is below ([\d,]+), else n − ([\d,]+) \(two's complement\)", rows["2 bytes, signed"])
    bad = []
    for b in (bytes(4), b"\xff" * 4, b"\xff\x7f\x34\x12", b"\x00\x80\xfe\xf1"):
        names = dict(zip("abcd", b))
        for size, stored in ((1, "1 byte"), (2, "2 bytes"), (4, "4 bytes")):
            bad += differences(value(rows[stored], names), model.number(b, 0, size), f"{stored}: ")
        n = value(signed[1], names)
        bad += differences(n if n < integer(signed[2]) else n - integer(signed[3]), model.signed(b, 0), "signed: ")
    return bad


@test("the table of parts is that of crates/sheet/specs/Fields.antt and of the tools")
def parts():
    """Each offset as a formula; the order of the pieces is that of a sheet of two fonts and two items."""
    source = read("crates/sheet/specs/Fields.antt")
    at = {name: formula for name, formula in re.findall(r"^(font_at|item_at|pieces_at)(?: \w)* = (.*)$", source, re.M)}
    items = at["item_at"].replace(" * ", " × ").replace("font_count b", "F")
    bad = differences(at["pieces_at"], "item_at b (item_count b)", "pieces_at: ")
    rows = table("Sheet", ["part", "offset", "size"])
    wanted = [["header", "0", str(layout.HEADER_SIZE)], ["font record k", re.sub(r"\bn\b", "k", at["font_at"].replace(" * ", " × ")), str(layout.FONT_SIZE)],
              ["item record j", re.sub(r"\bn\b", "j", items), str(layout.ITEM_SIZE)], [re.sub(r"\bn\b", "I", items), "up to the end"]]
    bad += differences([*rows[:3], rows[3][1:]], wanted)
    for name, offset, _ in rows:
        for fonts, items in ((0, 0), (2, 3), (4, 64)):
            number = value(offset, {"F": fonts, "I": items, "k": 1, "j": 2})
            tool = {"h": 0, "f": layout.font_record(1), "i": layout.item_record(fonts, 2), "p": layout.item_record(fonts, items)}[name[0]]
            bad += differences(number, tool, f"{name} with {fonts} fonts and {items} items: ")
    two = assemble((8, 8, 0), [FontPart("", b"", b"", 0, 0, (0,) * 8, None)] * 2, [ItemPart("", (0, 0), b"", 0, 0, bytes(8), (0,) * 4, None)] * 2)
    pieces = [piece[0] for piece in explain.pieces(two, layout.header_of(two))]
    return bad + differences(rows[3][0], f"pieces: {', '.join(pieces[:3])}, .., then {', '.join(pieces[4:])}, ..")


@test("the byte tables are those of crates/sheet/specs/Fields.antt")
def fields_as_defined():
    defined = defined_fields()
    paper = {row[3].strip("`"): row[:2] for _, which, *_ in PARTS for row in rows_of(which)}
    return [f"{name}: {paper.get(name)}, and not {defined.get(name)}" for name in {**defined, **paper} if paper.get(name) != defined.get(name)]


@test("the byte tables are those of tools/station_sheet/layout.py")
def fields_as_in_tools():
    bad = []
    for name, which, _, form, record in PARTS:
        at, tool = 0, []
        codes = [code for count, code in re.findall(r"(\d*)([HhIB])", form.format) for _ in range(int(count or 1))]
        for field, code in zip(record._fields, codes, strict=True):
            size = {"B": 1, "H": 2, "h": 2, "I": 4}[code]
            tool.append((at, size, field, code == "h"))
            at += size
        paper = [(row[0], row[1], TOOL_NAMES.get(row[2], row[2].replace(" ", "_")), "signed" in row[4]) for row in rows_of(which)]
        bad += [f"{name}: {p}, and not {t}" for p, t in zip(paper, tool, strict=True) if p != t]
    return bad


def numbered(fields):
    """The bytes of an item from the first field to the last, as a sentence has them."""
    rows = {row[2]: row for row in rows_of(2)}
    first, last = rows[fields[0]][0], rows[fields[-1]][0] + rows[fields[-1]][1] - 1
    return f"{first} {'and' if last == first + 1 else 'to'} {last}"


STYLE_FIELDS = [f"{part} {kind}" for part in ("text", "background", "underline", "strikethrough") for kind in ("mode", "grey")]


@test("the bytes that the style and the edits take are those of the byte tables, and of an edit")
def bytes_of_edits():
    rows = {row[0]: row[1:] for row in table("Drawing and edits", ["kind", "data", "bytes that are replaced"])}
    places = {"new text": numbered(["text length"]), "new place": numbered(["x", "y"]), "new style": numbered(STYLE_FIELDS)}
    bad = differences({kind: re.findall(r"item bytes (\d+ (?:and|to) \d+)", row[1]) for kind, row in rows.items()}, {kind: [at] for kind, at in places.items()})
    bad += differences(re.findall(r"Bytes (\d+ to \d+) of an item are its style", SECTIONS["Sheet"]), [places["new style"]], "style: ")
    bad += differences([row[2] for row in rows_of(2) if row[2] in STYLE_FIELDS], STYLE_FIELDS, "fields of the style: ")
    bad += differences(rows["new style"][0], f"{len(STYLE_FIELDS)} bytes", "data of a new style: ")
    sheet = sheet_of(text=b"AB", slot=4)
    for kind, data, changed in (("text", (b"A" * 3,), "new text"), ("place", (-1, -1), "new place"), ("style", (bytes([1, 9, 1, 9, 2, 9, 2, 9]),), "new style")):
        edited = bytearray(sheet)
        getattr(model, f"set_{kind}")(edited, None, 0, *data)
        first, last = map(int, re.findall(r"\d+", places[changed]))
        bad += [f"{changed} changes byte {k} of the item" for k in range(28) if edited[52 + k] != sheet[52 + k] and not first <= k <= last]
        bad += differences(any(edited[52 + k] != sheet[52 + k] for k in range(first, last + 1)), True, f"{changed} changes its bytes: ")
    return bad


CODE_NAMES = {"alignment": layout.ALIGNMENTS, "baseline": layout.BASELINES, "height kind": layout.HEIGHT_KINDS}


def tool_codes(field):
    """The names that the tools give the codes of a field; a grey of 77 is one that is used."""
    if field in CODE_NAMES:
        return list(CODE_NAMES[field])
    shown, own = (grey, "set") if field in ("text mode", "background mode") else (decoration, "own grey")
    return [{"77": own}.get(shown(code, 77), shown(code, 77)) for code in range(len(DEFINED_COLORS[shown]))]


# how crates/records/specs/Records.antt names the codes, in their order
DEFINED_COLORS = {grey: ["None", "Some"], decoration: ["NoColor", "TextColor", "Custom"]}
DEFINED_NAMES = {"optional_grey": DEFINED_COLORS[grey], "decoration_color": DEFINED_COLORS[decoration], "alignment": ["Left", "Center", "Right"],
                 "baseline": ["Top", "Bottom", "Middle", "Alphabetic"], "line_height": ["Pixels", "Percent"]}


@test("the codes of the item's fields are those of the tools and of crates/records/specs/Records.antt")
def codes():
    bad, records = [], read("crates/records/specs/Records.antt")
    for name, variants in DEFINED_NAMES.items():
        body = re.search(rf"^{name} (?:\w+ )+= (.*)$", records, re.M)[1]
        tested = [(int(code), variant) for code, variant in re.findall(r"\(eqb \w+ (\d)\) \(?(\w+)", body)]
        bad += differences(tested, list(enumerate(variants[:-1])), f"{name}: ")
        bad += differences(re.findall(r"[A-Z]\w*", body)[-1], variants[-1], f"{name}, otherwise: ")
    for _, _, field, _, meaning, must, _ in rows_of(2):
        if field in CODE_NAMES or field.endswith(" mode"):
            bad += differences(meaning, ", ".join(f"{code} {name}" for code, name in enumerate(tool_codes(field))), f"{field}: ")
            bad += differences(must, f"0 to {len(tool_codes(field)) - 1}", f"{field}: ")
        elif field.endswith(" grey"):
            mode = field.replace("grey", "mode")
            bad += differences(re.findall(r"if (.*) is (\d)$", meaning), [(mode, str(len(tool_codes(mode)) - 1))], f"{field}: ")
    return bad


# the fields that include/station.h names otherwise than the paper
HEADER_NAMES = [{"WIDTH": "frame width", "HEIGHT": "frame height", "PAPER": "paper grey", "LENGTH": "whole length"}, {},
                {"SLOT": "slot offset", "FONT": "font number", "STYLE": "text mode", "HEIGHT": "height value"}]


@test("the offsets that include/station.h names are those of the byte tables")
def fields_as_in_header():
    bad = []
    for prefix, which in (("AT_", 0), ("ITEM_(?:AT_)?", 2)):
        paper = {row[2]: row[0] for row in rows_of(which)}
        for name, at in re.findall(rf"#define STATION_{prefix}(\w+) (\d+)$", read("include/station.h"), re.M):
            field = HEADER_NAMES[which].get(name, name.lower().replace("_", " "))
            bad += differences(paper.get(field), int(at), f"{field}: ")
    return bad


# ---- limits

LIMITS, MAPPING, EDITS, CALLS = ("crates/limits/specs/Limits.antt", "crates/mapping/specs/Mapping.antt", "crates/sheet/specs/Edits.antt",
                                 "crates/calls/specs/Calls.antt")
# each limit of the paper: where its definition stands, how its number is written there (a field's name, or what is before the number), and the tools' name
DEFINED_LIMITS = {
    "bytes of the file": (LIMITS, "len|file_length", "MOST_BYTES"),
    "frame width": (LIMITS, "w|width", "MOST_SIDE"),
    "frame height": (LIMITS, "h|height", "MOST_SIDE"),
    "frame width × frame height": (LIMITS, r"\(w(?:idth)? \* h(?:eight)?\)", "MOST_AREA"),
    "fonts": (LIMITS, "fonts", "MOST_FONTS"),
    "items": (LIMITS, "items", "MOST_ITEMS"),
    "cell width": (LIMITS, "cw", "MOST_CELL"),
    "cell height": (LIMITS, "ch", "MOST_CELL"),
    "spacing": (LIMITS, "s|spacing", "MOST_CELL"),
    "atlas width": (LIMITS, "atlas_width|width", "MOST_ATLAS_WIDTH"),
    "characters that a mapping spells": (MAPPING, r"\(length \(list_of mapping\)\)", "MOST_SPELLED"),
    "slot size": (LIMITS, "slot|slot_size", "MOST_SLOT"),
    "height value": (LIMITS, "value|height_value", "MOST_HEIGHT"),
    "whitespace": (CALLS, "width", None),
}
DEFINED_CODES = {"text mode": "text", "background mode": "background", "underline mode": "underline", "strikethrough mode": "strikethrough",
                 "alignment": "alignment", "baseline": "baseline", "height kind": "kind|height_kind"}


def tested(path, names):
    """The least and the most that is tested of the first of the names that has a most; a field of a record counts by its name."""
    source = re.sub(r"\b\w\.(\w+)", r"\1", read(path))
    source = re.sub(r"\((\w+)\)", r"\1", source)
    for name in names.split("|"):
        most = {integer(n) for n in re.findall(rf"\bleb {name} (\d[\d_]*)", source)}
        if most:
            least = {integer(n) for n in re.findall(rf"\bleb (\d[\d_]*) {name}(?!\w)", source)} or {0}
            return (*least, *most)
    return f"no number for {names} in {path}"


@test("the limits are those of the definitions")
def limits_as_defined():
    bad, rows = [], {row[0]: (integer(row[1]), integer(row[2])) for row in table("Sheet", ["limit", "least", "most", "else"])}
    for name, (path, how, _) in DEFINED_LIMITS.items():
        limit = rows.pop(name, None)
        bad += differences(limit and (0 if "×" in name else limit[0], limit[1]), tested(path, how), f"{name}: ")
    edits = read(EDITS)
    places = [integer(n) for n in re.findall(r"^in_range \((?:pos|negsuc) n\) = ltb n (\S+)$", edits, re.M)]
    style = [integer(n) for n in re.findall(r"eqb \(length t\) (\d+)", edits)]
    bad += differences(rows, {"new x or y": (-places[1], places[0] - 1), "bytes of a new style": (style[0], style[0])})
    for row in rows_of(2):
        if row[2] in DEFINED_CODES:
            bad += differences(tuple(map(integer, row[5].split(" to "))), tested(LIMITS, DEFINED_CODES[row[2]]), f"{row[2]}: ")
    return bad


@test("the limits are those of the tools and of include/station.h")
def limits_as_in_tools():
    rows = {row[0]: integer(row[2]) for row in table("Sheet", ["limit", "least", "most", "else"])}
    bad = [d for name, (_, _, tool) in DEFINED_LIMITS.items() if tool for d in differences(rows[name], getattr(layout, tool), f"{name}: ")]
    macros = {name: int(n) for name, n in re.findall(r"#define STATION_(\w+) (\d+)", read("include/station.h"))}
    pages = next(row for row in table("Replies and refusals", ["number", "least", "most"]) if row[0] == "length of a page file")
    for macro, most in (("MOST_SHEET", rows["bytes of the file"]), ("MOST_FRAME", rows["frame width × frame height"]), ("MOST_PAGE", integer(pages[2])),
                        ("MOST_SLOT", rows["slot size"]), ("STYLE_LENGTH", rows["bytes of a new style"])):
        bad += differences(macros.get(macro), most, f"STATION_{macro}: ")
    return bad


# ---- fonts from BDF

BDF = "Fonts from BDF"
READER = "crates/bdf/specs/Reader.antt"


def bdf_limits():
    """The least and the most of each limit of a BDF font, as they are written."""
    return {row[0]: (row[1], row[2]) for row in table(BDF, ["limit", "least", "most", "else"])}


@test("the limits of BDF fonts are those of the definitions and of the tools")
def limits_of_bdf():
    source = read(READER)
    origin = integer(re.search(r"^origin = (\S+)$", source, re.M)[1])
    sides = {integer(n) for n in re.findall(r"leb [wh]\.size (\S+)", source)}
    tested_ = {"side of the cell": (0, *sides), "offset of the cell or of a BBX": (-origin, origin),
               "baseline": (0, integer(re.search(r"leb \(baseline .*?\)\) (\S+)", source)[1])),
               "bytes of the mapping": (0, integer(re.search(r"leb \(r\.mapping \+ .*?\)\) ([\d_]+)", source)[1])),
               "encoding": (0, int(re.search(r"leb n\.size 0x([0-9A-F]+)", source)[1], 16))}
    limits = {name: tuple(map(integer, pair)) for name, pair in bdf_limits().items()}
    tools = {"side of the cell": layout.MOST_CELL, "offset of the cell or of a BBX": bdf.MOST_OFFSET, "baseline": bdf.MOST_BASELINE,
             "bytes of the mapping": bdf.MOST_MAPPING}
    bad = differences(limits, tested_) + [d for name, most in tools.items() for d in differences(limits[name][1], most, f"{name}: ")]
    (low, high), side, most = bdf_limits()["offset of the cell or of a BBX"], bdf_limits()["side of the cell"][1], bdf_limits()["baseline"][1]
    rows = dict(table(BDF, ["line", "refused with 20 if"]))
    for line, phrases in (("FONTBOUNDINGBOX", [f"outside 0 to {side}", f"outside {low} to {high}", f"above {most}"]), ("BBX", [f"outside {low} to {high}"])):
        bad += [f"{line}: no {phrase!r}" for phrase in phrases if phrase not in rows[line]]
    return bad + differences(origin, integer(re.search(r"offset beyond ±([\d,]+) is", SECTIONS[BDF])[1]), "rule of the offsets: ")


@test("the keywords are those of crates/bdf_lines/specs/Keywords.antt")
def keywords():
    letters = re.findall(r"^(\w+) = (\w ∷ .*)\[\]$", read("crates/bdf_lines/specs/Keywords.antt"), re.M)
    defined = {word.replace(" ∷ ", "") for _, word in letters}
    listed = [row[0] for which in (0, 1) for row in table(BDF, ["keyword", "behind it", "gives"], which)]
    return differences({*listed, "ENDPROPERTIES", "COMMENT"}, defined) + differences(len(listed), len(set(listed)), "once each: ")


def bdf_file():
    (_, file), (_, dump) = blocks("Worked examples", "A font from BDF")
    return file.encode("ascii"), dumped(dump)


@test("the record of a BDF font has the fields of a font record, and the values of the example")
def record_of_bdf():
    rows, fields = table(BDF, ["field", "value"]), [(row[0], row[1], row[2]) for row in rows_of(1)]
    bad = differences([row[0] for row in rows], [name for _, _, name in fields])
    _, font = bdf_file()
    number = {name: model.number(font, at, size) for at, size, name in fields}
    names = {"N": 2, "cw": number["cell width"], "ch": number["cell height"], "H": number["cell height"], "Y": -1}
    names["atlas length"] = number["atlas length"]
    for name, text in rows:
        formula = re.split(", ", text)[0]
        if "number of" in formula:
            continue
        for word in sorted(names, key=len, reverse=True):
            formula = re.sub(rf"\b{word}\b", str(names[word]), formula)
        found = eval(formula.replace("×", "*").replace("−", "-").replace("/", "//"), {"__builtins__": {}})
        bad += differences(found, number[name], f"{name}: ")
    return bad


@test("the BDF file of the examples: its font, and other lines in the place of its own")
def bdf_example():
    file, font = bdf_file()
    output = bytearray(b"\x5a") * 80
    bad = differences((model.read_bdf(file, output), output), ((0, len(font)), font + b"\x5a" * (80 - len(font))))
    short = bytearray(b"\x5a") * (len(font) - 1)
    bad += differences((model.read_bdf(file, short), set(short)), ((17, 0), {0x5A}), "an output a byte shorter: ")
    for line, other, reply in table("Worked examples", ["line", "in its place", "reply"]):
        line, other = line.strip("`").encode("ascii") + b"\n", b"" if other == "(left out)" else other.strip("`").encode("ascii") + b"\n"
        at = (b"\n" + file).index(b"\n" + line)
        output = bytearray(80)
        wanted = tuple(map(integer, reply.split(", ")))
        bad += differences(model.read_bdf(file[:at] + other + file[at + len(line):], output), wanted, f"{line} -> {other}: ")
        if wanted == (0, len(font)):
            bad += differences(output[:len(font)], font, f"{line} -> {other}: ")
    with open("crates/read_bdf/stdin", "rb") as stdin, open("crates/read_bdf/stdout", "rb") as stdout:
        return bad + differences((file, font), (stdin.read(), stdout.read()), "the input and output of read_bdf: ")


SHORTEST_BDF = b"STARTFONT 2.1\nFONT f\nSIZE 1 1 1\nFONTBOUNDINGBOX 64 64 0 0\nCHARS 0\nENDFONT\n"


def longest_bdf():
    """A file that gives the longest font: as many glyphs as the mapping has room for, and no byte of it unused."""
    codes = [*range(2, 0x800), *range(0x800, 0x800 + 20_523)]
    glyph = "STARTCHAR g\nENCODING %d\nSWIDTH 0 0\nDWIDTH 0 0\nBBX 0 0 0 0\nBITMAP\nENDCHAR\n"
    head = f"STARTFONT 2.1\nFONT f\nSIZE 1 1 1\nFONTBOUNDINGBOX 64 64 0 0\nCHARS {len(codes)}\n"
    return (head + "".join(glyph % code for code in codes) + "ENDFONT\n").encode("ascii")


# ---- refusals and calls

def refusals():
    return {row[1].strip("`"): int(row[0]) for row in table("Replies and refusals", ["number", "name", "rule", "in full: refused if"])}


def header_codes():
    return {name: int(n) for name, n in re.findall(r"\bSTATION_(?:REFUSED_)?([A-Z_]+) = (\d+)", read("include/station.h")) if n != "0"}


@test("the refusals are those of include/station.h and docs/REFUSALS.md")
def refusals_as_named():
    listed = {name: int(n) for n, name in re.findall(r"^\| (\d+) \| `(?:STATION_)?(?:REFUSED_)?(\w+)` \|", read("docs/REFUSALS.md"), re.M)}
    return differences(refusals(), header_codes(), "station.h: ") + differences(refusals(), listed, "REFUSALS.md: ")


def limit_rows():
    """The least and the most of each limit, as they are written."""
    return {row[0]: (row[1], row[2]) for row in table("Sheet", ["limit", "least", "most", "else"])}


def numbered_phrases():
    """Of each refusal the phrases with numbers, of its rule and of its full text, with the limits and offsets in them."""
    limit, font, most = limit_rows(), bdf_limits(), {row[2]: row[5].split(" to ")[-1] for row in rows_of(2)}
    at = {row[2]: row[0] for row in rows_of(2)}
    style = {field: at[field] - at["text mode"] for field in STYLE_FIELDS}
    (low, high), (short, long), size = limit["new x or y"], limit["bytes of the file"], limit["bytes of a new style"][1]
    return {
        1: (["header zero field not 0"], [f"fewer than {short} or more than {long} bytes", "header's zero field is not 0"]),
        2: ([f"edition not {layout.EDITION}"], [f"edition is not {layout.EDITION}"]),
        3: ([], [f"width or height is outside {' to '.join(limit['frame width'])}", f"width × height is above {limit['frame width × frame height'][1]}"]),
        4: ([], [f"F is above {limit['fonts'][1]}", f"I is above {limit['items'][1]}"]),
        6: (["zero field not 0"], [f"cell width, cell height or spacing is above {limit['spacing'][1]}", f"atlas width is above {limit['atlas width'][1]}",
                                   "zero field is not 0"]),
        8: ([], [f"more than {limit['characters that a mapping spells'][1]} characters"]),
        9: (["slot tail or zero field not 0"], [
            f"slot size is above {limit['slot size'][1]}", f"text or background mode above {most['text mode']}",
            f"underline or strikethrough mode above {most['underline mode']}", *(f"{field} above {most[field]}" for field in CODE_NAMES),
            f"height value above {limit['height value'][1]}", "zero field not 0", "slot after the text not 00"]),
        15: ([f"outside {low} to {high}"], [f"outside {low} to {high}"]),
        16: ([f"not {size} bytes"], [f"not have {size} bytes", f"byte {style['text mode']} or {style['background mode']} is above {most['text mode']}",
                                     f"byte {style['underline mode']} or {style['strikethrough mode']} above {most['underline mode']}"]),
        18: ([f"above {limit['whitespace'][1]}"], [f"above {limit['whitespace'][1]}"]),
        20: ([f"baseline above {font['baseline'][1]}", f"mapping above {font['bytes of the mapping'][1]} bytes"], [
            f"side of the cell is above {font['side of the cell'][1]}", f"offset is outside {' to '.join(font['offset of the cell or of a BBX'])}",
            f"baseline is above {font['baseline'][1]}", f"more than {font['bytes of the mapping'][1]} bytes"]),
        22: (["a place not 8 bytes long"], ["kind is above 2", "other than 8 bytes"]),
    }


@test("the numbers of the refusals are those of the limits and of the byte tables")
def numbers_of_refusals():
    """Each phrase stands there, and no other number."""
    bad, phrases = [], numbered_phrases()
    limit, most = limit_rows(), {row[2]: row[5] for row in rows_of(2)}
    for group in (("cell width", "cell height", "spacing"), ("frame width", "frame height")):
        bad += differences(len({limit[name] for name in group}), 1, f"limits of {group}: ")
    for pair in (("text mode", "background mode"), ("underline mode", "strikethrough mode")):
        bad += differences(len({most[name] for name in pair}), 1, f"codes of {pair}: ")
    for number, _, *texts in table("Replies and refusals", ["number", "name", "rule", "in full: refused if"]):
        for text, wanted in zip(texts, phrases.get(int(number), ([], []))):
            for phrase in wanted:
                found = re.search(rf"(?<!\w){re.escape(phrase)}(?![\w,]*\d)", text)
                bad += [] if found else [f"{number}: {phrase!r} is not in {text!r}"]
                text = text[:found.start()] + text[found.end():] if found else text
            bad += differences(re.findall(r"\d[\d,]*", text), [], f"{number}: other numbers: ")
    return bad


def paper_calls():
    columns = ["call", "arguments", "own tests", "reply if good", "changes if good"]
    return {row[0].strip("`"): row[1:] for row in table("Replies and refusals", columns)}


@test("each export has the parameters and clauses of the call that it hands on")
def exports_as_calls():
    def signed(crate):
        found = re.findall(r'pub (?:extern "C" )?fn (station_\w+)\(([^)]*)\) -> (\w+)\n((?:    ensures .*\n)+)\{', read(f"crates/{crate}/src/lib.rt"))
        return [[" ".join(part.split()).rstrip(",") for part in call] for call in found]
    calls, exports = signed("station"), signed("station_c")
    return differences(exports, calls) + differences(sorted(call[0] for call in calls), sorted(paper_calls()), "calls: ")


@test("the calls, their arguments, own tests and replies are those of the library and its header")
def calls_as_declared():
    paper, header = paper_calls(), read("include/station.h")
    bad = differences(sorted(paper), sorted(re.findall(r"fn (station_\w+)\(", read("crates/station/src/lib.rt"))), "exports: ")
    declared = re.findall(r"/\*((?:(?!\*/).)*)\*/\s*(\w+) (station_\w+)\((.*?)\);", header, re.S)
    bad += differences(sorted(paper), sorted(name for _, _, name, _ in declared), "declared: ")
    codes = header_codes()
    for comment, reply, name, parameters in declared:
        arguments = [p for p in re.findall(r"(\w+)(?:,|$)", parameters) if not p.endswith("_length")]
        bad += differences(paper[name][0].split(", "), arguments, f"{name}: arguments ")
        word = "code 0" if reply == "uint32_t" else reply.removeprefix("station_")
        if not paper[name][2].startswith(word):
            bad.append(f"{name}: reply {paper[name][2]!r}, and not {reply}")
        own = re.search(r"Refusals:([^.]*)\.", comment)
        if own and name != "station_walk":
            numbers = [codes.get(n) for n in re.findall(r"STATION_(?:REFUSED_)?([A-Z_]+)", own[1])]
            bad += differences([int(n) for n in paper[name][1].split(", ") if n], numbers, f"{name}: own tests ")
    if sum("Refusals:" in comment for comment, *_ in declared) < 13:
        bad.append("station.h does not name the refusals of each call")
    return bad


@test("the replies' numbers are those of include/station.h")
def replies_as_declared():
    paper = {row[0]: row[1].split(", ") for row in table("Replies and refusals", ["reply", "numbers, in this order"])}
    found = {"code": ["code"]}
    for body, name in re.findall(r"typedef struct \{(.*?)\} station_(\w+);", read("include/station.h"), re.S):
        fields = [(kind, field) for kind, listed in re.findall(r"^\s*(\w+_t) ([\w, ]+);", body, re.M) for field in listed.split(", ")]
        found[name] = [field + (" (signed)" if kind == "int32_t" else "") for kind, field in fields]
    return differences(paper, found)


# ---- quotations

MARKS = {".antt": "--", ".rt": "//", ".rs": "//"}


def stands(quotation, texts):
    """Whether a quotation stands in one of the texts; '..' and '...' are for what is left out."""
    parts = [spread(part).strip(" ,;.") for part in re.split(r"(?:^|(?<= ))\.\.\.?(?= |$)", quotation)]
    return any(re.search(".*?".join(re.escape(p) for p in parts), text) for text in texts)


def comments(path):
    """The comments of a source, each with the lines that follow it at once, and its first line's number."""
    mark = MARKS[os.path.splitext(path)[1]]
    block, start = [], 0
    for n, line in enumerate(read(path).split("\n") + [""], 1):
        found = re.match(r"\s*" + mark + r"[/!]*(.*)", line)
        if found:
            start = start if block else n
            block.append(found[1].strip())
        elif block:
            yield start, " ".join(block)
            block = []


def unquoted(paths, papers):
    """The quotations in comments that do not stand in the papers."""
    texts = [spread(read(p)) for p in papers]
    for path in sorted(paths):
        for line, comment in comments(path):
            for quotation in re.findall(r'"([^"]+)"', comment):
                if not stands(quotation, texts):
                    yield f'{path}:{line}: "{quotation}"'


@test("every rule that a definition quotes stands in the paper")
def quoted_in_specs():
    return list(unquoted(glob.glob("crates/*/specs/*.antt"), [PAPER, DEMANDS]))


@test("every rule that a proof, the code or the oracle quotes stands in the paper or among the demands")
def quoted_in_proofs():
    kinds = ("crates/*/proofs/**/*.antt", "crates/*/src/**/*.rt", "oracle/src/**/*.rs")
    return list(unquoted([path for kind in kinds for path in glob.glob(kind, recursive=True)], [PAPER, DEMANDS]))


# ---- what a reader must believe

JOINING = "crates/station/specs/Joining.antt"


def fields_of(name):
    """The fields of a record of the statement on joined strings, each with its type."""
    body = re.search(rf"^  pub record {name} : Type 0 where\n((?:    .*\n)*)", read(JOINING), re.M)[1]
    return re.findall(r"^    pub ([\w-]+) : (.*)$", body, re.M)


@test("docs/TRUST.md quotes the statement on joined strings, and include/station.h names its parts with the two calls")
def joining_quoted():
    trust, bad = read("docs/TRUST.md"), []
    declared = {name: comment for comment, name in re.findall(r"/\*((?:(?!\*/).)*)\*/\s*\w+ (station_\w+)\(", read("include/station.h"), re.S)}
    for call, names in (("station_draw_item", ("TwoRuns", "StringsJoined")), ("station_draw_whitespace", ("TwoWidths", "WidthsJoined"))):
        for name in names:
            quoted = re.findall(rf"^```\n{name}\n(.*?)^```", trust, re.M | re.S)
            bad += differences([re.findall(r"^ +([\w-]+) : (.*)$", block, re.M) for block in quoted], [fields_of(name)], f"{name} in TRUST: ")
            bad += [f"{call}: {field} of {name}" for field, _ in fields_of(name) if not re.search(rf"(?<![\w-]){field}(?![\w-])", declared[call])]
    return bad


@test("docs/TRUST.md names the definitions that must be believed, and they use no others")
def believed():
    rows = re.findall(r"^\| `(\w+)` \| ([A-Z]\w*(?:, [A-Z]\w*)*) \|$", read("docs/TRUST.md"), re.M)
    named = {f"crates/{crate}/specs/{name}.antt" for crate, names in rows for name in names.split(", ")}
    bad = []
    for path in sorted(glob.glob("crates/*/specs/*.antt")):
        if path.endswith("/Lib.antt"):
            continue
        source = read(path)
        head = source[:source.index("\nuse ")].splitlines()
        marks = [line for line in head if line.startswith(("-- To be believed: ", "-- Serves contracts: "))]
        if len(marks) != 1 or marks[0].startswith("-- To be believed") != (path in named):
            bad.append(f"{path}: its head and TRUST do not agree")
        if path in named:
            bad += [f"{path} uses {crate}/specs/{name}" for crate, name in re.findall(r"^use Rattle\.(\w+)\.specs\.(\w+)", source, re.M)
                    if crate != "std" and name != "declared" and f"crates/{crate}/specs/{name}.antt" not in named]
    return bad + [f"{path} is not there" for path in sorted(named) if not os.path.exists(path)]


# ---- UTF-8

@test("the two tables of UTF-8 allow the same sequences")
def utf8_tables():
    def span(cell):
        low, _, high = cell.partition(" to ")
        return int(low, 16), int(high or low, 16)
    rows = [[span(cell) for cell in row if cell] for row in table("Characters", ["a", "b", "c", "d"])]
    tails, bad = (0x7F, 0x80, 0xBF, 0xC0), []
    for a in range(256):
        for b in (0x00, 0x7F, 0x80, 0x8F, 0x90, 0x9F, 0xA0, 0xBF, 0xC0, 0xFF):
            for rest in [(c, d) for c in tails for d in tails]:
                line = bytes([a, b, *rest])
                length = next((len(row) for row in rows if all(low <= byte <= high for byte, (low, high) in zip(line, row))), None)
                step = model.step(line, 0)
                if (None if step == model.ILL_FORMED else step[1]) != length:
                    bad.append(line.hex(" "))
                if length and length > 1 and model.step(line[:length - 1], 0) != model.ILL_FORMED:
                    bad.append(line.hex(" ") + ", cut")
    return bad


@test("the first table of UTF-8 has the characters of the model")
def utf8_values():
    bad, at = [], 0
    for leads, length, tails, formula, ill_formed in table("Characters", ["a", "length", "b, c, d", "the character's number v", "ill-formed if"]):
        low, high = (int(n, 16) for n in leads.split(" to "))
        bad += differences(low, at, f"{leads}: first byte ")
        at, size = high + 1, int(length or 1)
        bad += differences(tails, f"{', '.join('bcd'[:size - 1])} {'is' if size == 2 else 'are'} 80 to BF" if size > 1 else "", f"{leads}: ")
        for b in itertools.product(range(low, high + 1), *[(0x80, 0x8F, 0x90, 0x9F, 0xA0, 0xBF)] * (size - 1)):
            v = value(re.sub(r"\((\w) mod (\d+)\)", lambda found: str(b["abcd".index(found[1])] % int(found[2])), formula or "0"), dict(zip("abcd", b)))
            limits = {word: [int(n, 16) for n in re.findall(rf"\b{word} ([0-9A-F]+)", ill_formed)] for word in ("below", "above", "from", "to")}
            wrong = ill_formed == "always" or any(v < n for n in limits["below"]) or any(v > n for n in limits["above"])
            wrong = wrong or any(first <= v <= last for first, last in zip(limits["from"], limits["to"]))
            step = model.step(bytes(b) + b"\x80" * 3, 0)
            if step != (model.ILL_FORMED if wrong else (v, size)):
                bad.append(f"{bytes(b).hex(' ')}: {step}")
    return bad + differences(at, 256, "first bytes: ")


# ---- worked examples

SAMPLE = dict(atlas=b"\x90\x60", mapping=b"AB", replacement=1, atlas_width=4, small=(2, 2, 1, 1, 0, 1, 3, 1))


def sheet_of(font=SAMPLE, frame=(8, 6), x=0, y=0, text=b"", style=bytes(8), alignment=0, height=(0, 0), fonts=1, items=1, slot=None, baseline=0):
    """A sheet of one font and one item, or of none, by the byte tables."""
    def le(n, size):
        return (n % 256**size).to_bytes(size, "little")
    at, atlas, mapping, slot = 24 + 28 * fonts + 28 * items, font["atlas"], font["mapping"], len(text) if slot is None else slot
    rest = b""
    if fonts:
        rest += le(at, 4) + le(len(atlas), 4) + le(at + len(atlas), 4) + le(len(mapping), 2) + le(font["replacement"], 2) + le(font["atlas_width"], 2)
        rest += bytes(font["small"]) + bytes(2)
        at += len(atlas) + len(mapping)
    if items:
        rest += le(x, 2) + le(y, 2) + le(at, 4) + le(slot, 2) + le(len(text), 2) + b"\0" + style
        rest += bytes([alignment, baseline, height[0]]) + le(height[1], 2) + bytes(2)
    rest += (atlas + mapping if fonts else b"") + (text + bytes(slot - len(text)) if items else b"")
    head = le(1, 2) + le(frame[0], 2) + le(frame[1], 2) + bytes([200, fonts]) + le(items, 2) + bytes(2)
    return head + le(24, 4) + le(24 + 28 * fonts, 4) + le(24 + len(rest), 4) + rest


def picture(rows=""):
    """A frame of 8 by 6 pixels with the rows that a table has; a pixel that is not shown has the grey 77."""
    frame = bytearray([77]) * 48
    for r, row in enumerate(re.findall(r"`([^`]*)`", rows)):
        for c, shown in enumerate(row.split()):
            frame[8 * r + c] = 77 if shown == "·" else int(shown)
    return frame


@test("marked lines that draw")
def marked_pictures():
    bad = []
    for text, style, replacement, rows, next_, replaced in table("Worked examples", ["text", "style", "replacement", "rows", "next", "replaced"]):
        b = sheet_of({**SAMPLE, "replacement": int(replacement)}, text=hex_bytes(text), style=hex_bytes(style))
        frame = picture()
        reply = model.draw_item(b, frame, 0)
        bad += differences(reply, (0, *map(integer, re.findall(r"-?\d+", next_)), int(replaced)), f"{text}, {style}: ")
        bad += differences(frame.hex(" ", 8), picture(rows).hex(" ", 8), f"{text}, {style}: ")
    return bad


@test("marked lines of starts, mappings, texts, heights and frames")
def marked_numbers():
    bad = []
    for text, x, alignment, start in table("Worked examples", ["text", "x", "alignment", "start"]):
        for style in (bytes(8), bytes([1, 9, 1, 5, 0, 0, 0, 0])):
            item = model.item_at(sheet_of(text=hex_bytes(text), x=int(x), alignment=int(alignment), style=style), 0)
            bad += differences([line[1] for line in model.lines_of(item)], [int(start)], f"{text} from {x}: ")
    for mapping, spells, character, index, listed in table("Worked examples", ["mapping", "spells", "character", "index", "listed"]):
        b = sheet_of({**SAMPLE, "mapping": hex_bytes(mapping), "replacement": 9})
        font = model.font_at(b, 0)
        bad += differences(model.runs(font.mapping)[1], integer(spells.split(", refused")[0]), f"{mapping}: ")
        bad += differences(model.check(b)[0], 8 if "refused with 8" in spells else 0, f"{mapping}: ")
        if character:
            bad += differences(model.index_call(b, 0, int(character[2:], 16)), (0, integer(index), int(listed)), f"{mapping}, {character}: ")
    for text, outcome in table("Worked examples", ["bytes", "a sheet with this text"]):
        bad += differences(model.check(sheet_of(text=hex_bytes(text)))[0], 0 if outcome == "accepted" else integer(outcome.split()[-1]), f"{text}: ")
    seven = sheet_of({**SAMPLE, "small": (2, 7, 1, 1, 0, 1, 3, 1)}, text=b"\n", height=(1, 150))
    bad += differences(model.draw_item(seven, bytearray(48), 0), (0, 0, 10, 0), "ch 7 at 150 percent: ")
    for side, code in (((256, 256), 0), ((512, 129), 3), ((512, 128), 0)):
        bad += differences(model.check(sheet_of(frame=side, fonts=0, items=0))[0], code, f"{side}: ")
    return bad


@test("the replaced characters of texts, in every style, at every place and with every atlas")
def replaced_characters():
    bad = []
    for text, mapping, count in table("Worked examples", ["text", "mapping", "replaced"]):
        for style, place, atlas in itertools.product((bytes(8), bytes([1, 9, 1, 5, 1, 0, 2, 7])), ((0, 0), (-32_768, 32_767)), (b"\x90\x60", b"")):
            font = {**SAMPLE, "mapping": hex_bytes(mapping), "atlas": atlas}
            reply = model.draw_item(sheet_of(font, text=hex_bytes(text), style=style, x=place[0], y=place[1]), bytearray(48), 0)
            bad += differences((reply[0], reply[3]), (0, int(count)), f"{text} in {mapping}, {style.hex(' ')}, {place}, {atlas.hex(' ')}: ")
    return bad


@test("lines in two runs, and at once")
def two_runs():
    bad = []
    columns = ["first", "second", "cell", "spacing", "style", "in two runs", "next", "at once", "next"]
    for first, second, cell, spacing, style, runs, behind, whole, after in table("Worked examples", columns):
        first, second, small = hex_bytes(first), hex_bytes(second), (*map(int, cell.split(", ")), int(spacing), *SAMPLE["small"][3:])
        b = bytearray(sheet_of({**SAMPLE, "small": small}, style=hex_bytes(style), slot=2))
        for texts, rows, position in (((first, second), runs, behind), ((first + second,), whole, after)):
            frame, sheet, reply = picture(), bytearray(b), (0, 0, 0, 0)
            for text in texts:
                bad += differences((model.set_place(sheet, None, 0, *reply[1:3])[0], model.set_text(sheet, None, 0, text)[0]), (0, 0))
                reply = model.draw_item(sheet, frame, 0)
            bad += differences(reply[:3], (0, *map(integer, re.findall(r"-?\d+", position))), f"{texts}: ")
            bad += differences(frame.hex(" ", 8), picture(rows).hex(" ", 8), f"{texts}: ")
    return bad


@test("ink boxes of the smallest inputs")
def ink_boxes():
    bad = []
    for ch, strikethrough, underline, style, box, _ in table("Worked examples", ["ch", "strikethrough", "underline", "style", "ink box", "why"]):
        small = (1, int(ch), 0, 0, *map(int, strikethrough.split(", ")), *map(int, underline.split(", ")))
        item = model.item_at(sheet_of({**SAMPLE, "small": small}, text=b"A", style=hex_bytes(style)), 0)
        bad += differences(str(model.ink_box(item) or "none"), box, f"{ch}, {strikethrough}, {underline}, {style}: ")
    return bad


@test("RFC 3629's examples, and the walker's steps")
def sequences():
    bad = []
    for line, listed in table("Worked examples", ["sequences", "characters"]):
        bad += differences(model.characters(hex_bytes(line)), [int(c[2:], 16) for c in listed.split()], f"{line}: ")
    line = hex_bytes(re.search(r"walker over the line ([0-9A-F ]+) \(", SECTIONS["Worked examples"])[1])
    for offset, reply in table("Worked examples", ["offset", "reply"]):
        bad += differences(model.walk(line, int(offset)), tuple(map(integer, reply.split(", "))), f"offset {offset}: ")
    return bad


@test("the page file is put together as its table says")
def page_table():
    """Bytes with what they are, and the numbers of the frame; the model writes the page of each frame so."""
    words, bad = {"a line feed": b"\n", "a blank": b" "}, []
    rows = table("Page and host", ["bytes", "what"])
    for cell, what in rows:
        if re.fullmatch("[0-9A-F]{2}( [0-9A-F]{2})*", cell):
            said = [words.get(part) or part.strip("`").encode() for part in re.split(", | and ", what)]
            bad += differences(hex_bytes(cell), b"".join(said), f"{what}: ")
    most = integer(limit_rows()["frame width"][1])
    digits = f"{len(str(1))} to {len(str(most))} digits"
    for frame in ((1, 1), (4, 2), (most, 128), (100, 99)):
        greys = bytes(31 * k % 256 for k in range(frame[0] * frame[1]))
        sides, file = iter(frame), b""
        for cell, what in rows:
            side = re.match("the frame's (width in decimal, digits 30 to 39, without leading zeros|height, likewise)$", what)
            bad += differences(cell, digits, f"{what}: ") if side else []
            file += b"%d" % next(sides) if side else greys if cell == "width × height bytes" else hex_bytes(cell)
        bad += differences(file == model.page_file(sheet_of(frame=frame, fonts=0, items=0), greys), True, f"page file of {frame}: ")
    lengths = re.search(r"The shortest page has ([\d,]+) bytes, the longest ([\d,]+)\.", SECTIONS["Page and host"])
    pages = [len(model.station_page(sheet_of(frame=frame, fonts=0, items=0))) for frame in ((1, 1), (256, 256))]
    return bad + differences([integer(n) for n in lengths.groups()], pages, "shortest and longest: ")


def dumped(text):
    """The bytes of a dump; its offsets must be right."""
    b = b""
    for line in text.strip().split("\n"):
        assert int(line[:4], 16) == len(b), line
        b += bytes.fromhex(line[6:53])
    return b


def drawn(frame, width):
    signs = dict(re.findall(r"`(.)` (\d+)", re.search(r"a sign for each grey: (.*)\.", SECTIONS["Worked examples"])[1]))
    sign = {int(grey): s for s, grey in signs.items()}
    return "".join(" ".join(sign[g] for g in frame[at:at + width]) + "\n" for at in range(0, len(frame), width))


SMALLEST, WHOLE = "The smallest sheets", "A whole sheet"


@test("the smallest sheets, as bytes and pages")
def smallest():
    (_, dump), (_, page) = blocks("Worked examples", SMALLEST)
    b = dumped(dump)
    bad = differences(model.station_page(b), bytes.fromhex(page), "page: ")
    for changed, code in ((b[:-1], 1), (b"\2" + b[1:], 2), (b[:7] + b"\xff" + b[8:], 4), (b[:12] + b"\x17" + b[13:], 5)):
        bad += differences(model.station_page(changed), b"refused %d\n" % code)
    return bad + differences(b, sheet_of(frame=(4, 2), fonts=0, items=0))


@test("the whole sheet: its page and its replies")
def whole():
    (_, dump), (_, page) = blocks("Worked examples", WHOLE)
    b = dumped(dump)
    bad = differences(model.check(b), (0,)) + differences(drawn(model.page(b), 16), page)
    bad += differences(model.font_at(b, 0), model.font_at(sheet_of(), 0), "the sample font: ")
    functions = {"station_index": model.index_call, "station_draw_item": lambda b, n: model.draw_item(b, model.page(b), n),
                 "station_draw_whitespace": lambda b, n, width: model.draw_whitespace(b, model.page(b), n, width)}
    for call, reply in table("Worked examples", ["call", "reply"]):
        name, arguments = re.fullmatch(r"`(\w+)` \((.*)\)", call).groups()
        values = [int(a.split("+")[1], 16) if "+" in a else int(a.split()[1]) for a in arguments.split(", ") if a]
        function = functions.get(name) or getattr(model, name.removeprefix("station_"))
        bad += differences(function(b, *values), tuple(map(integer, reply.split(", "))), f"{call}: ")
    return bad


@test("a field that is not what it must be is refused with its number, and any that may be anything is accepted")
def fields_tried():
    good, bad = dumped(blocks("Worked examples", WHOLE)[0][1]), []

    def tried(at, size, value):
        return model.check(good[:at] + (value % 256**size).to_bytes(size, "little") + good[at + size:])[0]
    for which, start in ((0, 0), (1, 24), (2, 24 + 28)):
        for offset, size, field, _, _, must, other in rows_of(which):
            at, was = start + offset, model.number(good, start + offset, size)
            bounds = [tuple(map(integer, found)) for found in re.findall(r"([\d,]+) to ([\d,]+)", must)]
            wrong = {"exactly that, 24 to 65,536": [was + 1, was - 1], "as laid out": [was + 1, was - 1], "0 to slot size": [9], "below F": [1, 255]}.get(must)
            wrong = wrong or [n for low, high in bounds for n in (high + 1, low - 1) if n >= 0] or [was + 1]
            if must.isdigit():
                wrong = [n for n in (int(must) - 1, int(must) + 1, int(must) + 256) if n >= 0]
                bad += differences(tried(at, size, int(must)), 0, f"{field} of {must}: ")
            if must.startswith("any"):
                bad += [f"{field}: {n} is refused" for n in (0, 1, 128, 256**size - 1) if tried(at, size, n)]
            else:
                bad += [d for n in wrong for d in differences(tried(at, size, n), int(other.split("; ")[0]), f"{field} of {n}: ")]
    slot = sheet_of(text=b"A" * 256), sheet_of(text=b"A" * 257)
    bad += differences([model.check(b)[0] for b in slot], [0, 9], "slots of 256 and 257: ")
    limits = {row[0]: row[1:] for row in table("Sheet", ["limit", "least", "most", "else"])}
    for _, which, *_ in PARTS:
        for _, _, field, _, _, must, other in rows_of(which):
            least, most, code = limits.get("bytes of the file" if field == "whole length" else field, (0, 0, 0))
            if most and (f"{least} to {most}" not in must or code not in other.split("; ")):
                bad.append(f"{field}: {must}, {other}, and not {least} to {most}, {code}")
            bad += [d for most in re.findall(r"width × height at most ([\d,]+)", must) for d in differences(most, limits["frame width × frame height"][1])]
    return bad


@test("the edits of the whole sheet: replies, damage rectangles and pages")
def edits():
    bad, b = [], bytearray(dumped(blocks("Worked examples", WHOLE)[0][1]))
    frame, fresh = bytearray(model.page(b)), bytearray(b)
    pages = [page for _, page in blocks("Worked examples", "Edits")]
    steps = [rows for head, rows in tables("Worked examples") if head == ["edit", "data", "reply"]]
    for rows, page in zip(steps, pages, strict=True):
        for edit, data, reply in rows:
            kind, item = re.fullmatch(r"(\w+) of item (\d+)", edit).groups()
            values = [integer(v) for v in data.split(", ")] if kind == "place" else [hex_bytes(data)]
            for sheet, lent in ((b, frame), (fresh, None)):
                answer = getattr(model, "set_" + kind)(sheet, lent, int(item), *values)
                bad += differences(answer, tuple(map(integer, reply.split(", "))), f"{edit} {data}: ")
        bad += differences(drawn(frame, 16), page, "patched: ") + differences(drawn(model.page(fresh), 16), page, "fresh: ") + differences(b, fresh)
        if rows is steps[0]:
            bad += differences((b[0x3E], b[0x8C:0x94]), (1, bytearray(b"\x42" + bytes(7))), "bytes of the new text: ")
    return bad


@test("lists of edits of the whole sheet: replies, and sheet and frame as after the same edits one by one")
def lists_of_edits():
    bad, whole = [], bytes(dumped(blocks("Worked examples", WHOLE)[0][1]))
    [rows] = [rows for head, rows in tables("Worked examples") if head == ["list", "reply", "why"]]
    strange = bytes(37 * k % 251 for k in range(len(model.page(whole))))
    for data, reply, _ in rows:
        edits, wanted = hex_bytes(data), tuple(map(integer, reply.split(", ")))
        for greys in (bytes(model.page(whole)), strange):
            (b, frame), (single, singly) = ((bytearray(whole), bytearray(greys)) for _ in range(2))
            bad += differences(model.edit_list(b, frame, edits), wanted, f"{data}: ")
            for kind, item, given in (model.entries_of(edits) or [])[:wanted[1]]:
                bad += differences(model.entry_made(single, singly, kind, item, given)[0], 0, f"{data}, item {item}: ")
            bad += differences((b, frame), (single, singly), f"{data}: ")
    return bad + differences(sorted({integer(reply.split(", ")[0]) for _, reply, _ in rows}), [0, 12, 16, 22])


@test("the ranges of replies")
def ranges():
    wide = {**SAMPLE, "small": (64, 64, 64, 255, 0, 0, 255, 255)}
    both, underlined = bytes([1, 0, 1, 0, 0, 0, 0, 0]), bytes([0, 0, 0, 0, 2, 0, 0, 0])
    far, near, frame = 32_767, -32_768, bytearray(1)

    def next_of(**asked):
        return model.draw_item(sheet_of(wide, (1, 1), **asked), frame, 0)

    def start_of(text, **asked):
        item = model.item_at(sheet_of(wide, (1, 1), text=text, **asked), 0)
        return next(model.lines_of(item))[1]

    def box_of(text, **asked):
        return model.bounding_box(sheet_of(wide, (1, 1), text=text, **asked), 0)
    found = {"an index": (0, model.index_call(sheet_of({**SAMPLE, "replacement": 65_535}), 0, 0)[1]),
             "a line's start": (start_of(b"A" * 256, x=near, alignment=2), start_of(b"", x=far, alignment=2)),
             "next x of an item": (next_of(text=b"A\r", x=near, alignment=2, style=both)[1], next_of(text=b"A" * 256, x=far)[1]),
             "next x of whitespace": (model.draw_whitespace(sheet_of(x=near), bytearray(48), 0, 0)[1],
                                      model.draw_whitespace(sheet_of(x=far), bytearray(48), 0, 65_535)[1]),
             "next y of an item": (next_of(y=near)[2], next_of(text=b"\n" * 256, y=far, height=(0, 1_000))[2]),
             "replaced characters of an item": (next_of(text=b"A" * 256)[3], next_of(text=b"Z" * 256)[3]),
             "left of a bounding box": (box_of(b"A" * 256, x=near, alignment=2)[1], box_of(b"A", x=far)[1]),
             "top of a bounding box": (box_of(b"A", y=near, baseline=3)[2], box_of(b"\n" * 255 + b"A", y=far, height=(0, 1_000))[2]),
             "width of a bounding box": (box_of(b"")[3], box_of(b"A" * 256)[3]),
             "height of a bounding box": (box_of(b"")[4], box_of(b"A" + b"\n" * 254 + b"A", height=(0, 1_000), style=underlined)[4]),
             "length of a page file": tuple(len(model.station_page(sheet_of(frame=f, fonts=0, items=0))) for f in ((1, 1), (256, 256))),
             "length of a font": tuple(model.read_bdf(file, bytearray(12_000_000))[1] for file in (SHORTEST_BDF, longest_bdf())),
             "side of a damage rectangle": (model.set_place(bytearray(sheet_of()), None, 0, 0, 0)[3],
                                            model.set_text(bytearray(sheet_of(wide, (512, 1), slot=9, style=both)), None, 0, b"A" * 9)[3])}
    return differences({row[0]: (integer(row[1]), integer(row[2])) for row in table("Replies and refusals", ["number", "least", "most"])}, found)


# ---- the model, on what is stored

@test("the model gives the pages of the samples")
def samples():
    bad = []
    for path in sorted(glob.glob("samples/*.sheet")):
        with open(path, "rb") as sheet, open(path.removesuffix("sheet") + "pgm", "rb") as page:
            if model.station_page(sheet.read()) != page.read():
                bad.append(path)
    return bad if glob.glob("samples/*.sheet") else ["no samples"]


def stored(name):
    with open(f"crates/{name}/stdin", "rb") as stdin, open(f"crates/{name}/stdout", encoding="utf-8") as stdout:
        return stdin.read(), stdout.read()


@test("the model's check on the stored sheets")
def stored_sheets():
    data, wanted = stored("stored_sheets")
    at, found = 0, []
    while at < len(data):
        size = model.number(data, at, 4)
        if at + 4 + size > len(data):
            found.append("cut")
            break
        code = model.check(data[at + 4:at + 4 + size])[0]
        found.append(f"{len(found)} refused {code}" if code else f"{len(found)} accepted")
        at += 4 + size
    return [f"{f}, and not {w}" for f, w in zip(found, wanted.split("\n")[:-1], strict=True) if f != w]


@test("the model on the stored BDF files")
def stored_fonts():
    data, wanted = stored("stored_fonts")
    r, k, found = Reader(data), 0, []
    while r.at < len(data):
        file, output = r.take(r.number(4)), bytearray(65_536)
        code, size = model.read_bdf(file, output)
        found += [f"{k} refused {code}"] if code else [f"{k} font {size} {hash_of(output[:size])}", f"{k} short {model.read_bdf(file, bytearray(size - 1))[0]}"]
        k += 1
    return [f"{f}, and not {w}" for f, w in zip(found, wanted.split("\n")[:-1], strict=True) if f != w]


def hash_of(font):
    h = 0
    for byte in font:
        h = (31 * h + byte) % 1_000_003
    return h


class Reader:
    """Little-endian numbers and bytes, one after another."""

    def __init__(self, data, at=0):
        self.data, self.at = data, at

    def take(self, size):
        self.at += size
        return self.data[self.at - size:self.at]

    def number(self, size):
        return int.from_bytes(self.take(size), "little")

    def signed(self):
        return int.from_bytes(self.take(4), "little", signed=True)


def checksum(data):
    total = 0
    for byte in data:
        total = (total * 257 + byte + 1) % 4_294_967_291
    return total


@test("the model on the stored list of edits and batches, patched and fresh")
def edit_list():
    data, wanted = stored("edit_lists")
    r = Reader(data)
    size, pixels = r.number(4), r.number(4)
    patched = bytearray(r.take(size))
    fresh, frame = bytearray(patched), bytearray(31 * k % 256 for k in range(pixels))
    found = [f"drawing {model.draw(patched, frame)[0]}"]
    while r.at < len(data):
        kind, item = r.number(1), r.number(4)
        values = (r.signed(), r.signed()) if kind == 1 else (r.take(r.number(2)),)
        call = (model.set_text, model.set_place, model.set_style, model.edit_list)[kind]
        values, name = (values, "batch") if kind == 3 else ((item, *values), "edit")
        before = bytes(frame)
        reply, again = call(patched, frame, *values), call(fresh, None, *values)
        left, top, w, h = reply[-4:]
        width = model.number(patched, 2, 2)
        kept = all(before[k] == frame[k] for k in range(pixels) if not (left <= k % width < left + w and top <= k // width < top + h))
        same = "differs" if (reply, patched) != (again, fresh) else "refused" if reply[0] == 22 else "same"
        found.append(f"{name} {len(found)}: {' '.join(map(str, reply))} {same} outside {'kept' if kept else 'painted'}")
    found += [f"drawing {model.draw(fresh, own := bytearray(pixels))[0]}", "sheets same" if patched == fresh else "sheets differ"]
    found += ["frames same" if frame == own else "frames differ", f"sheet {checksum(patched)}", f"frame {checksum(frame)}"]
    return [f"{f}, and not {w}" for f, w in zip(found, wanted.split("\n")[:-1], strict=True) if f != w]


@test("the model on some of the stored lines in two runs and whitespace in two widths")
def runs_and_widths():
    data, wanted = stored("joined_runs")
    cases, lines = list(joined_runs.stored_cases(data)), wanted.split("\n")[:-1]
    bad = differences(len(lines), len(cases), "lines: ")
    return bad + [d for k in range(len(cases) - 1, 0, -23) for d in differences(lines[k], joined_runs.tried(*cases[k]), f"case {k}: ")]


def answer(kind, lent, a, data):
    """The reply of a call of the stored list, by its kind (oracle/src/list.rs)."""
    sheet, frame, output = lent
    place = [n - 2**32 if n >= 2**31 else n for n in a[1:]]
    match kind:
        case 0: return model.check(sheet)
        case 1: return model.index_call(sheet, a[0], a[1])
        case 2: return model.contains(sheet, a[0], a[1])
        case 3: return model.bounding_box(sheet, a[0])
        case 4: return model.draw_item(sheet, frame, a[0])
        case 5: return model.draw_whitespace(sheet, frame, a[0], a[1])
        case 6: return model.draw(sheet, frame)
        case 7 | 10: return model.set_text(sheet, frame if kind == 7 else None, a[0], data)
        case 8 | 11: return model.set_place(sheet, frame if kind == 8 else None, a[0], *place)
        case 9 | 12: return model.set_style(sheet, frame if kind == 9 else None, a[0], data)
        case 13: return model.write_page(sheet, frame, output)
        case 14: return model.walk(data, a[0])
        case 15: return model.edit_list(sheet, frame, data)


@test("the model on the stored list of the crate's answers: 320 cases, 2329 answers")
def oracle_list():
    data, bad, answers = stored("oracle_list")[0], [], 0
    r = Reader(data, 8)
    cases = r.number(4)
    for case in range(cases):
        lent = [bytearray(r.take(r.number(2))), bytearray(r.take(r.number(2))), bytearray(b"\x5a") * r.number(2)]
        for call in range(r.number(2)):
            before = [bytes(b) for b in lent]
            kind, a, given = r.number(1), [r.number(4) for _ in range(3)], r.take(r.number(2))
            code, *numbers = [n % 2**32 for n in answer(kind, lent, a, given)]
            reply = [code, *(numbers if kind == 15 else [0, *numbers])]
            wanted = [r.number(4) for _ in range(6)]
            if reply + [0] * (6 - len(reply)) != wanted:
                bad.append(f"case {case}, call {call}, kind {kind}: {reply}, and not {wanted}")
            for was, now, what in zip(before, lent, ("sheet", "frame", "output")):
                at = r.number(2)
                changed = r.take(r.number(2))
                if now != was[:at] + changed + was[at + len(changed):]:
                    bad.append(f"case {case}, call {call}, kind {kind}: another {what}")
            answers += 1
    return bad + differences((cases, answers, r.at), (320, 2329, len(data)))


# ---- the program, where it is built

def program(sheet):
    return subprocess.run(["target/bin/station_page"], input=sheet, stdout=subprocess.PIPE, stderr=subprocess.DEVNULL, check=False).stdout


@test("station_page gives the pages of the paper")
def pages_of_program():
    bad = []
    for example in (SMALLEST, WHOLE):
        b = dumped(blocks("Worked examples", example)[0][1])
        for changed in (b, b[:-1], b"\2" + b[1:], b + bytes(65_537 - len(b))):
            bad += differences(program(changed), model.station_page(changed), f"{example}, {len(changed)} bytes: ")
    return bad


@test("read_bdf gives the font of the paper")
def font_of_program():
    file, font = bdf_file()
    bad = []
    for changed, wanted in ((file, font), (file[:-9], b"refused 19\n"), (file + bytes(4_194_305 - len(file)), b"too long\n")):
        done = subprocess.run(["target/bin/read_bdf"], input=changed, stdout=subprocess.PIPE, stderr=subprocess.DEVNULL, check=False).stdout
        bad += differences(done, wanted, f"{len(changed)} bytes: ")
    return bad


# ---- references; those to a paper that is not here, when asked for

def tracked():
    """The files that git tracks here; where it does not answer, all that is neither built nor hidden."""
    try:
        listed = subprocess.run(["git", "ls-files"], capture_output=True, text=True, check=True).stdout.split("\n")
    except (OSError, subprocess.CalledProcessError):
        listed = []
    return [path for path in listed if os.path.isfile(path)] or list(walked())


def walked():
    for folder, folders, files in os.walk("."):
        folders[:] = [name for name in folders if not name.startswith((".", "__")) and name != "out" and os.path.join(folder, name) != "./target"]
        yield from (os.path.relpath(os.path.join(folder, name)) for name in files)


@test("the files are found without git too")
def found_without_git():
    missing = {path for path in tracked() if not path.startswith(".")} - set(walked())
    return sorted(missing) + [path for path in walked() if path.startswith(("target/", ".git/")) or "/out/" in path]


@test("every section of the paper that a file names is there")
def named_sections():
    bad, titles = [], "|".join(TITLES)
    for path in tracked():
        with open(path, encoding="utf-8", errors="replace") as f:
            text = re.sub(r"\n\s*(?:--|//[/!]?|#|\*)?\s*", " ", f.read())
        bad += [f"{path}: {name}" for name in re.findall(r"docs/SHEET\.md`?, ((?:section )?'?[A-Z]\w*[\w ]{0,24})", text) if not re.match(titles, name)]
    return bad


def lines_and_comments(path):
    """The lines of a file; those of a source's comments as one text, without what they quote of the demands."""
    demanded = spread(read(DEMANDS))
    with open(path, encoding="utf-8", errors="replace") as f:
        lines = f.read().split("\n")
    if os.path.splitext(path)[1] in MARKS:
        for n, comment in comments(path):
            yield n, re.sub(r'"([^"]+)"', lambda found: "" if stands(found[1], [demanded]) else found[0], comment)
        mark = MARKS[os.path.splitext(path)[1]]
        yield from ((n, line) for n, line in enumerate(lines, 1) if not line.lstrip().startswith(mark))
    else:
        yield from enumerate(lines, 1)


def references():
    bad = []
    for path in tracked():
        if path in (PAPER, DEMANDS, "tests/paper.py"):
            continue
        with open(path, encoding="utf-8", errors="replace") as f:
            named = DEMANDS in f.read()
        for n, line in lines_and_comments(path):
            cited = re.search(r"document 01|scope paper" + ("" if named else r"|\bdemands? [123]\b"), line, re.I)
            if cited:
                bad.append(f"{path}:{n}: {line.strip()[max(0, cited.start() - 40):cited.end() + 40]}")
    return bad


def main(asked):
    if asked not in ([], ["references"]):
        print(__doc__)
        return 2
    tests = TESTS + ([("no file cites a paper that is not here", references)] if asked else [])
    failed = 0
    for name, function in tests:
        needed = {pages_of_program: "target/bin/station_page", font_of_program: "target/bin/read_bdf"}.get(function)
        if needed and not os.path.exists(needed):
            print(f"skipped {name}: {needed} is not built")
            tests = [t for t in tests if t[1] is not function]
            continue
        try:
            bad = function()
        except Exception as error:  # a test that cannot be made has failed
            bad = [f"{type(error).__name__}: {error}"]
        failed += bool(bad)
        print(f"FAILED {name}" if bad else f"ok {name}")
        print("".join(f"    {line}\n" for line in bad[:20]), end="")
    print(f"{len(tests) - failed} passed, {failed} failed")
    return int(failed > 0)


if __name__ == "__main__":
    sys.exit(main(sys.argv[1:]))
