"""Makes crates/stored_fonts/stdin and crates/stored_fonts/stdout again: small BDF files, good and bad, and the reader's answers.

Beside each file, or each group of files, stands the number of the refusal that is meant, or 0; tests/bdf_model.py must give the same, and of
some good files the cells that are drawn here. Prints the number, the refusal and the name of each file.

In the input stands the length of each file (4 bytes, low byte first), then the file. In the output a line for each, by number: 'K refused N', or
'K font LENGTH HASH' and 'K short 17', which is the answer for an output one byte shorter than the font. HASH of the font's bytes b is the last h of
h = 0; h = (31 h + b) mod 1000003.

Usage: python3 tests/stored_fonts.py
"""
import os
import struct

import bdf_model

FILES = []
MOST_INPUT = 200_000
THIRTY = "123456789012345678901234567890"

# A file with a line of each kind. Its cells are 4 by 3, and the first glyph's box has not all of its cell.
BASE = """STARTFONT 2.1
FONT fixed
SIZE 8 75 75
FONTBOUNDINGBOX 4 3 0 -1
STARTPROPERTIES 2
FONT_ASCENT 2
FONT_DESCENT 1
ENDPROPERTIES
CHARS 2
STARTCHAR A
ENCODING 65
SWIDTH 500 0
DWIDTH 4 0
BBX 3 2 1 0
ATTRIBUTES 00fF
BITMAP
A0
40
ENDCHAR
STARTCHAR B
ENCODING 66
SWIDTH 500 0
DWIDTH 4 0
BBX 4 3 0 -1
BITMAP
F0
90
F0
ENDCHAR
ENDFONT""".split("\n")
PROPERTIES, ROWS = (5, 6), (16, 17, 25, 26, 27)
ATTRIBUTES = 14
# The lines of the first glyph and around it, which are of all kinds.
KINDS = [*range(20), 28, 29]


def file(lines, end="\n"):
    """The lines as a file; each ends with a feed, or otherwise."""
    return "".join(line + end for line in lines).encode("latin-1")


def store(name, refusal, content):
    """Keeps a file, and the refusal that is meant."""
    FILES.append((name, refusal, content if isinstance(content, bytes) else file(content)))


def at(keyword, line, changed=None):
    """The lines, BASE if not others, with another line in the place of the first that begins with this word; None leaves it out."""
    lines = list(BASE if changed is None else changed)
    place = next(k for k, old in enumerate(lines) if old.split()[0] == keyword)
    lines[place:place + 1] = [] if line is None else [line]
    return lines


def glyph(encoding=65, box="4 3 0 -1", rows=("F0", "90", "F0")):
    return ["STARTCHAR g", f"ENCODING {encoding}", "SWIDTH 500 0", "DWIDTH 4 0", f"BBX {box}", "BITMAP", *rows, "ENDCHAR"]


def font(*glyphs, box="4 3 0 -1", count=None):
    """A file without properties; its count is right if no other is given."""
    head = ["STARTFONT 2.1", "FONT fixed", "SIZE 8 75 75", f"FONTBOUNDINGBOX {box}", f"CHARS {len(glyphs) if count is None else count}"]
    return [*head, *(line for lines in glyphs for line in lines), "ENDFONT"]


def drawn(name, lines, mapping, baseline, pixels):
    """Keeps a good file, with its mapping, its baseline and its first row of cells; these stand beside each other, a blank between two."""
    store(name, 0, lines)
    content = FILES[-1][2]
    made = bdf_model.read(content)[1]
    width, height = made[18:20]
    assert made[21] == baseline and made[struct.unpack_from("<I", made, 8)[0]:] == mapping, name
    for row, text in enumerate(pixels):
        bits = "".join(f"{byte:08b}" for byte in made[28 + 2 * width * row:28 + 2 * width * (row + 1)])
        cells = text.replace(".", "0").replace("#", "1").split(" ")
        assert all(len(cell) == width for cell in cells) and bits == "".join(cells).ljust(16 * width, "0"), (name, row, bits)
    assert len(pixels) == height, name


# ---- lines that are missing, too many, in another order, or another line

def lines_missing():
    for k in KINDS:
        store(f"the file ends before line {k + 1}", 19, BASE[:k])
    for k in KINDS[1::3]:
        store(f"the file ends behind line {k}, which has no feed", 19, file(BASE[:k])[:-1])
    store("the last line has no feed", 0, file(BASE)[:-1])
    for k in KINDS:
        store(f"line {k + 1} is left out", 0 if k == ATTRIBUTES else 19, BASE[:k] + BASE[k + 1:])


def lines_moved():
    rows = [k for k in ROWS if k + 1 in ROWS]
    for k in KINDS:
        store(f"line {k + 1} is there twice", 19, BASE[:k] + [BASE[k]] + BASE[k:])
    for k in KINDS[:-1]:
        good = k == PROPERTIES[0] or k in rows
        store(f"lines {k + 1} and {k + 2} are exchanged", 0 if good else 19, BASE[:k] + [BASE[k + 1], BASE[k]] + BASE[k + 2:])


def keywords():
    for k, line in enumerate(BASE[:20]):
        if k in (*PROPERTIES, *ROWS):
            continue
        word, *rest = line.split()
        other = (word.lower(), word + "S", word[:-1])[k % 3]
        store(f"{other} for {word}", 19, BASE[:k] + [" ".join([other, *rest])] + BASE[k + 1:])
        if word not in ("FONT", "STARTCHAR"):
            store(f"{word} with a word too many", 19, BASE[:k] + [f"{line} 1"] + BASE[k + 1:])
        if rest:
            store(f"{word} with a word too few", 19, BASE[:k] + [" ".join([word, *rest[:-1]])] + BASE[k + 1:])
    store("ENDFONT with a word too many", 19, at("ENDFONT", "ENDFONT 1"))
    store("ENDFONT in lower case", 19, at("ENDFONT", "endfont"))
    for word in ("2.2", "2", "2.10", "02.1", "2.1.", "3.0"):
        store(f"version {word}", 19, at("STARTFONT", f"STARTFONT {word}"))
    for line in ("CONTENTVERSION 1", "METRICSSET 0", "SWIDTH 500 0", "DWIDTH 4 0", "VVECTOR 0 0"):
        store(f"{line} before the properties, as later versions have it", 19, at("STARTPROPERTIES", f"{line}\nSTARTPROPERTIES 2"))
    for line in ("SWIDTH1 500 0", "DWIDTH1 4 0", "VVECTOR 0 0"):
        store(f"{line} before BBX, as later versions have it", 19, at("BBX", f"{line}\nBBX 3 2 1 0"))
    store("names of several words", 0, at("FONT", "FONT  a b\tc ", at("STARTCHAR", "STARTCHAR d e 5")))
    store("names of other bytes", 0, at("FONT", "FONT \x00\x01\xff", at("STARTCHAR", "STARTCHAR \xe4\x0c")))
    store("names that are keywords", 0, at("FONT", "FONT COMMENT", at("STARTCHAR", "STARTCHAR ENDCHAR")))
    store("name of the font is blank", 19, at("FONT", "FONT \t "))
    store("name of the glyph is blank", 19, at("STARTCHAR", "STARTCHAR  "))


# ---- numbers

PLACES = [("SIZE", 1, 0), ("SIZE", 2, 0), ("SIZE", 3, 0), ("FONTBOUNDINGBOX", 1, 20), ("FONTBOUNDINGBOX", 2, 20), ("FONTBOUNDINGBOX", 3, 20),
          ("FONTBOUNDINGBOX", 4, 20), ("STARTPROPERTIES", 1, 19), ("CHARS", 1, 19), ("ENCODING", 1, 21), ("SWIDTH", 1, 0), ("SWIDTH", 2, 0),
          ("DWIDTH", 1, 0), ("DWIDTH", 2, 0), ("BBX", 1, 20), ("BBX", 2, 20), ("BBX", 3, 20), ("BBX", 4, 20)]


def with_word(keyword, place, word):
    """BASE with another word, of which {} is the old one."""
    words = next(line for line in BASE if line.split()[0] == keyword).split()
    words[place] = word.replace("{}", words[place])
    return at(keyword, " ".join(words))


def numbers():
    for k, (keyword, place, large) in enumerate(PLACES):
        word = ("+{}", "-", "{}.0", "{}x")[k % 4]
        store(f"{word} as number {place} of {keyword}", 19, with_word(keyword, place, word))
        value = int(with_word(keyword, place, "{}")[[line.split()[0] for line in BASE].index(keyword)].split()[place])
        for word in (THIRTY, (f"-{THIRTY}", str(2**32 + value), str(2**64 + value))[k % 3]):
            store(f"{word} as number {place} of {keyword}", large, with_word(keyword, place, word))
    for word in ("--{}", "{}-", "0x{}", "{}e0", "{},", "{}/", "{}:", "A", "- {}", "{}\x00", "\x0b{}", "\xb2"):
        store(f"{word!a} as the encoding", 19, with_word("ENCODING", 1, word))
    zeros = "0" * 30
    lines = [f"SIZE -{zeros}8 {zeros}75 {zeros}75", f"FONTBOUNDINGBOX {zeros}4 {zeros}3 -{zeros} -{zeros}1", f"STARTPROPERTIES {zeros}2", f"CHARS {zeros}2",
             f"ENCODING {zeros}65", f"SWIDTH {zeros}500 -{zeros}", f"DWIDTH {zeros}4 -0", f"BBX {zeros}3 {zeros}2 {zeros}1 -{zeros}"]
    changed = BASE
    for line in lines:
        changed = at(line.split()[0], line, changed)
    store("thirty zeros before each number", 0, changed)
    store("-0 glyphs", 0, font(count="-0"))
    store("-0 properties", 0, at("CHARS", "STARTPROPERTIES -0\nENDPROPERTIES\nCHARS 0", font()))
    store("-1 glyphs", 19, font(count=-1))
    store("-1 properties", 19, at("STARTPROPERTIES", "STARTPROPERTIES -1"))
    store("an encoding of 4,000 digits", 21, font(glyph("9" * 4000)))
    store("an encoding of 4,000 zeros", 0, font(glyph("0" * 4000)))
    store("digits of several kinds and a letter behind 1,000 zeros", 19, font(glyph("0" * 1000 + "6x5")))


# ---- boxes

def cells():
    for box, refusal in (("0 0 0 0", 0), ("64 64 0 0", 0), ("65 64 0 0", 20), ("64 65 0 0", 20), ("-1 3 0 0", 20), ("4 -1 0 0", 20), ("-0 -0 -0 -0", 0),
                         ("0 64 0 -10", 0), ("64 0 0 -10", 0), ("256 3 0 0", 20), ("4 256 0 0", 20), ("4 3 0 253", 0), ("4 3 0 254", 20), ("64 64 0 192", 0),
                         ("64 64 0 193", 20), ("4 0 0 256", 0), ("4 0 0 257", 20), ("4 3 0 -2", 0), ("4 3 0 -3", 0), ("4 3 0 -300", 0),
                         ("4 3 1000000000 0", 0), ("4 3 1000000001 0", 20), ("4 3 -1000000000 0", 0), ("4 3 -1000000001 0", 20), ("4 3 0 -1000000000", 0),
                         ("4 3 0 -1000000001", 20), ("4 3 0 1000000000", 20), ("4 3 0 2147483648", 20), ("4 3 0 4294967295", 20), ("4 3 4294967296 0", 20)):
        store(f"cell {box}", refusal, font(box=box))
    store("a glyph in a cell of no size", 0, font(glyph(box="0 0 0 0", rows=()), box="0 0 0 0"))
    store("33 glyphs in cells of no width", 0, font(*(glyph(33 + k, "0 2 0 0", ("", "")) for k in range(33)), box="0 2 0 0"))
    store("33 glyphs in cells of no height", 0, font(*(glyph(33 + k, "2 0 0 0", ()) for k in range(33)), box="2 0 0 0"))


def boxes():
    """In a cell of 4 by 3 whose left is 0 and whose foot is -1."""
    good = ("4 3 0 -1", "1 1 0 -1", "1 1 3 -1", "1 1 0 1", "1 1 3 1", "2 2 2 0", "0 2 0 0", "0 2 4 0", "0 3 4 -1", "2 0 0 -1", "2 0 0 2", "4 0 0 2",
            "0 0 0 -1", "0 0 4 2")
    past = ("5 3 0 -1", "4 4 0 -1", "1 1 -1 0", "1 1 4 0", "2 1 3 0", "4 1 1 0", "1 1 0 -2", "1 1 0 2", "1 2 0 1", "1 3 0 0", "0 2 -1 0", "0 2 5 0",
            "0 1 0 2", "0 0 0 -2", "2 0 0 3", "2 0 0 -2", "1 0 4 0", "0 0 5 2", "0 0 4 3", "-1 2 1 0", "3 -1 1 0", "-1 -1 3 1", "3 2 1000000000 0",
            "3 2 -1000000000 0", "3 2 1 1000000000", "3 2 1 -1000000000", "3 2 1000000001 0", "3 2 1 -1000000001", "3 2 4294967296 0", "3 2 1 4294967296",
            "4294967296 2 0 0", "3 4294967296 1 0")
    for box in good:
        width, height = map(int, box.split()[:2])
        store(f"box {box}", 0, font(glyph(box=box, rows=["F0" if width else ""] * height)))
    for box in past:
        store(f"box {box}", 20, font(glyph(box=box, rows=["F0", "F0"])))
    far = "1000000000"
    store("a box at the farthest right", 0, font(glyph(box=f"4 3 {far} 0"), box=f"4 3 {far} 0"))
    store("a box farther right than is allowed, in its cell", 20, font(glyph(box="3 3 1000000001 0"), box=f"4 3 {far} 0"))
    store("a box at the farthest left and lowest", 0, font(glyph(box=f"4 3 -{far} -{far}"), box=f"4 3 -{far} -{far}"))
    store("the second glyph's box passes its cell", 20, font(glyph(65), glyph(66, "4 3 0 0")))


# ---- bitmaps

def bitmaps():
    for row, refusal in (("f0", 0), ("aF", 0), ("FF", 0), ("0F", 0), ("F", 19), ("", 19), ("F00", 19), ("F000", 19), ("G0", 19), (" F0", 19), ("F0 ", 19),
                         ("F\t0", 19), ("  ", 19), ("+F", 19), ("-1", 19), ("0x", 19), ("F/", 19), ("F:", 19), ("@0", 19), ("`0", 19), ("g0", 19),
                         ("F\x00", 19), ("\xb20", 19), ("COMMENT", 19), ("COMMENT of a row", 19), ("ENDCHAR", 19), ("F0\r", 0), ("F0\r\r", 19), ("F\r", 19),
                         ("\rF0", 19), ("\r", 19)):
        store(f"row {row!a}", refusal, font(glyph(rows=("90", row, "90"))))
    store("a blank line before the rows", 19, font(glyph(rows=("", "F0", "90", "F0"))))
    store("a comment before the rows", 19, font(glyph(rows=("COMMENT", "F0", "90", "F0"))))
    store("blank lines and comments behind the rows", 0, font(glyph(rows=("F0", "90", "F0", "", " \t", "COMMENT ENDCHAR", "\r"))))
    store("a row too many", 19, font(glyph(rows=("F0", "90", "F0", "F0"))))
    store("a row too few", 19, font(glyph(rows=("F0", "90"))))
    for row, refusal in (("", 0), ("\r", 0), (" ", 19), ("00", 19), ("COMMENT", 19), ("ENDCHAR", 19), ("\r\r", 19)):
        store(f"row {row!a} of a box without width", refusal, font(glyph(box="0 2 1 0", rows=("", row))))
    store("no row of a box without height", 0, font(glyph(box="3 0 1 0", rows=())))
    store("a row of a box without height", 19, font(glyph(box="3 0 1 0", rows=("E0",))))
    store("blank lines and comments in a box without height", 0, font(glyph(box="3 0 1 0", rows=("", "COMMENT"))))
    for word, refusal in (("0000", 0), ("abCD", 0), ("000", 19), ("00000", 19), ("000G", 19), ("-000", 19), ("00 00", 19), ("0x00", 19), ("00\xb20", 19)):
        store(f"attributes {word!a}", refusal, at("ATTRIBUTES", f"ATTRIBUTES {word}"))
    store("attributes after a comment", 0, at("ATTRIBUTES", "COMMENT\nATTRIBUTES 0000\n\nCOMMENT"))
    store("attributes before the box", 19, at("BBX", "ATTRIBUTES 0000\nBBX 3 2 1 0", at("ATTRIBUTES", None)))
    for width in (1, 7, 8, 9, 15, 16, 17, 63, 64):
        digits = 2 * ((width + 7) // 8)
        count = 17 if width in (7, 9) else 2
        store(f"cells {width} wide, all bits set", 0, font(*(glyph(65 + k, f"{width} 1 0 0", ["F" * digits]) for k in range(count)), box=f"{width} 1 0 0"))
        rows = ["".join(f"{(37 * k + 11 * width) % 16:X}" for k in range(at, at + digits)) for at in range(2)]
        store(f"cells {width} wide, bits mixed", 0, font(glyph(65, f"{width} 2 0 0", rows), glyph(66, f"{width} 2 0 0", rows[::-1]), box=f"{width} 2 0 0"))
        store(f"a row one digit too short in a cell {width} wide", 19, font(glyph(65, f"{width} 1 0 0", ["F" * (digits - 1)]), box=f"{width} 1 0 0"))


def drawings():
    drawn("the file with a line of each kind", BASE, b"AB", 1, [".#.# ####", "..#. #..#", ".... ####"])
    drawn("boxes at the corners of their cells",
          font(glyph(0x30, "1 1 0 -1", ["80"]), glyph(0x31, "1 1 3 -1", ["80"]), glyph(0x32, "1 1 0 1", ["80"]), glyph(0x33, "1 1 3 1", ["80"])),
          b"0123", 1, [".... .... #... ...#", ".... .... .... ....", "#... ...# .... ...."])
    drawn("padding bits are dropped", font(glyph(0x41, "1 2 1 0", ["FF", "7F"]), glyph(0x42, "3 1 0 1", ["5F"])), b"AB", 1, [".#.. .#..", ".... ....", ".... ...."])
    drawn("offsets of a cell away from its origin", font(glyph(0x41, "2 1 -3 8", ["C0"]), glyph(0x42, "2 1 -1 7", ["40"]), box="4 3 -3 7"), b"AB", 9,
          [".... ....", "##.. ....", ".... ...#"])
    drawn("U+0000 is a range of itself", font(glyph(0, "1 1 0 0", ["80"]), glyph(1, "1 1 0 0", ["00"]), box="1 1 0 0"), b"\0\0\0\1", 0, ["# ."])
    wide = "F00000000000000F"
    drawn("a cell 64 wide", font(glyph(0xE000, "64 1 0 0", [wide]), glyph(0x10FFFF, "60 1 4 0", [wide]), box="64 1 0 0"), "\ue000\U0010ffff".encode("utf-8"), 0,
          ["####" + 56 * "." + "####" + " " + "...." + "####" + 56 * "."])


# ---- encodings and counts

def encodings():
    for words, refusal in (("0", 0), ("1", 0), ("-0", 0), ("127", 0), ("128", 0), ("2047", 0), ("2048", 0), ("55295", 0), ("55296", 21), ("56319", 21),
                           ("56320", 21), ("57343", 21), ("57344", 0), ("65535", 0), ("65536", 0), ("1114111", 0), ("1114112", 21), ("2147483713", 21),
                           ("4294967295", 21), ("-1", 21), ("-01", 21), ("-2", 21), ("-65", 21), ("-1 5", 21), ("-1 -1", 21), (f"-1 {THIRTY}", 21),
                           ("-001 -0", 21), ("5 6", 19), ("5 -1", 19), ("-2 5", 19), ("0 5", 19), ("-0 5", 19), ("1114112 5", 19), ("-1 x", 19),
                           ("-1 -", 19), ("-1 5 6", 19), ("65 x", 19), (f"{THIRTY} 5", 19), (f"-{THIRTY} 5", 19)):
        store(f"encoding {words}", refusal, font(glyph(words)))
    for one, other, refusal in ((65, 65, 21), (66, 65, 21), (0, 0, 21), (1, 0, 21), (0, 1, 0), (127, 128, 0), (2047, 2048, 0), (55295, 57344, 0),
                                (65535, 65536, 0), (57344, 55295, 21), (1114111, 1114111, 21), (1114111, 0, 21), (1114111, 1114112, 21), (65, -1, 21),
                                (65, THIRTY, 21), (65, 65 + 2**32, 21)):
        store(f"encodings {one} and {other}", refusal, font(glyph(one), glyph(other)))
    store("the third encoding is the first", 21, font(glyph(65), glyph(66), glyph(65)))
    store("the third encoding lies between", 21, font(glyph(65), glyph(68), glyph(67)))


def counts():
    store("no glyphs", 0, font())
    for count in (15, 16, 17, 32, 33):
        dots = (glyph(32 + 3 * k, "1 1 0 0", ["80" if k % 3 else "7F"]) for k in range(count))
        store(f"{count} glyphs", 0, font(*dots, box="1 1 0 0"))
    store("17 glyphs in cells of 3 by 2", 0, font(*(glyph(1000 + k, "2 1 1 1", [f"{(k * 64) % 256:02X}"]) for k in range(17)), box="3 2 0 0"))
    for count in (1, 3, 4, THIRTY, 2**32 + 2):
        store(f"count {count}, and two glyphs", 19, font(glyph(65), glyph(66), count=count))
    store("count 1, and none", 19, font(count=1))
    store("count 0, and one", 19, font(glyph(65), count=0))
    for count, refusal in ((0, 19), (1, 19), (3, 19), (THIRTY, 19)):
        store(f"{count} properties, and two are there", refusal, at("STARTPROPERTIES", f"STARTPROPERTIES {count}"))
    properties = ["\x00", "ENDPROPERTIES", "ENDFONT", "CHARS 5 x", "  a b c", "\xff\r", '"', "STARTPROPERTIES 1", "COMMENTS"]
    store("properties of any form", 0, at("CHARS", "\n".join([f"STARTPROPERTIES {len(properties)}", *properties, "ENDPROPERTIES", "CHARS 0"]), font()))
    store("blank lines and comments are no properties", 0, at("FONT_ASCENT", "\nFONT_ASCENT 2\n \t\nCOMMENT x\n\tCOMMENT\n\r"))
    store("a comment in the place of a property", 19, at("FONT_ASCENT", "COMMENT FONT_ASCENT 2"))
    store("properties twice", 19, at("CHARS", "STARTPROPERTIES 0\nENDPROPERTIES\nCHARS 2"))
    store("properties behind CHARS", 19, at("CHARS", "CHARS 0\nSTARTPROPERTIES 0\nENDPROPERTIES", font()))
    store("properties before the box", 19, at("FONTBOUNDINGBOX", "STARTPROPERTIES 0\nENDPROPERTIES\nFONTBOUNDINGBOX 4 3 0 -1", font()))
    store("a file behind the file", 19, font() + font())


# ---- lines and words

def spaced():
    """BASE with blank lines and comments wherever they do not count."""
    lines = []
    for k, line in enumerate(BASE):
        if k not in ROWS:
            lines += ["", "COMMENT", " \t COMMENT ENDFONT", "\t"]
        lines.append(line)
    return lines + ["COMMENT", "", "COMMENT at the end"]


def layout():
    store("returns before the feeds", 0, file(BASE, "\r\n"))
    store("returns before the feeds and the end", 0, file(BASE, "\r\n")[:-1])
    store("returns alone", 19, file(BASE, "\r"))
    store("feeds before the returns", 19, file(BASE, "\n\r"))
    store("two returns before each feed", 19, file(BASE, "\r\r\n"))
    store("a line of a return alone", 0, at("CHARS", "\r\nCHARS 2"))
    store("a line of two returns", 19, at("CHARS", "\r\r\nCHARS 2"))
    store("a return before a keyword", 19, at("CHARS", "\rCHARS 2"))
    store("a return behind a keyword", 19, at("CHARS", "CHARS\r 2"))
    store("a return and a blank at a line's end", 19, at("CHARS", "CHARS 2\r "))
    store("blanks and tabs around the words", 0, [line if k in ROWS else "\t " + line.replace(" ", " \t\t ") + " \t" for k, line in enumerate(BASE)])
    for name, byte in (("a form feed", "\x0c"), ("a vertical tab", "\x0b"), ("a no-break space", "\xa0"), ("a zero", "\x00")):
        store(f"{name} between the words", 19, at("CHARS", f"CHARS{byte}2"))
        store(f"a line of {name}", 19, at("CHARS", f"{byte}\nCHARS 2"))
    store("blank lines and comments", 0, spaced())
    store("blank lines and comments, with returns", 0, file(spaced(), "\r\n"))
    for line in ("COMMENTS x", "comment x", "COMMEN", "COMMENT\x00", "COMMENT\r", "#", "-", "ENDCHAR", "X"):
        store(f"{line!a} among the lines", 0 if line == "COMMENT\r" else 19, at("CHARS", f"{line}\nCHARS 2"))
    store("a comment first", 0, ["COMMENT", *BASE])
    store("a blank line first", 0, [" ", *BASE])
    for line in ("COMMENT", "", " ", "\r"):
        store(f"{line!a} behind ENDFONT, without a feed", 0, file(BASE) + line.encode("latin-1"))
    for line in ("ENDFONT", "x", "\x00", "\x1a", "STARTFONT 2.1"):
        store(f"{line!a} behind ENDFONT", 19, file(BASE) + line.encode("latin-1"))
    for content in (b"", b"\n", b"\r", b" ", b"S", b"\0", b"\n" * 100, b"\0" * 100, b"\xff" * 100, b" " * 100, b"COMMENT", b"ENDFONT", b"P5\n1 1\n255\n\0"):
        store(f"{content[:12]!a}, {len(content)} bytes", 19, content)
    store("a byte order mark", 19, b"\xef\xbb\xbf" + file(BASE))
    store("in UTF-16", 19, file(BASE).decode("ascii").encode("utf-16-le"))
    store("a comment of 3,000 bytes", 0, at("CHARS", "COMMENT " + "x" * 3000 + "\nCHARS 2"))
    store("3,000 blanks before a keyword", 0, at("CHARS", " " * 3000 + "CHARS 2"))


# ---- the first of two faults

def order():
    store("20 at the cell, then 19", 20, font(glyph("x"), box="65 3 0 0"))
    store("19 at SIZE, then 20", 19, at("SIZE", "SIZE 8 75", font(box="65 3 0 0")))
    store("19 and 20 at the cell", 19, font(box="65 3 0 +0"))
    store("19 and 20 at the cell, by its words", 19, font(box="65 3 0 0 0"))
    store("20 at the cell, then a count that is too large", 20, font(box="65 3 0 0", count=THIRTY))
    store("21, then 19", 21, font(glyph(-1, rows=("x",))))
    store("21, then 20", 21, font(glyph(-1, "5 5 0 0")))
    store("19 and 21 at an encoding", 19, font(glyph("1114112 x")))
    store("19 at SWIDTH, then 20", 19, at("SWIDTH", "SWIDTH 5", font(glyph(65, "5 5 0 0"))))
    store("20, then 19 in the same glyph", 20, font(glyph(65, "5 5 0 0", ("x",))))
    store("19 and 20 at a box", 19, font(glyph(65, "5 5 0 0.")))
    store("20, then 21 in the next glyph", 20, font(glyph(65, "5 5 0 0"), glyph(65)))
    store("19, then 20 in the next glyph", 19, font(glyph(65, rows=("F0", "90", "F")), glyph(66, "5 5 0 0")))
    store("19, then 21 in the next glyph", 19, font(glyph(65, rows=("F0", "90", "F")), glyph(65)))
    store("21, then 20 in the next glyph", 21, font(glyph(65), glyph(64), glyph(66, "5 5 0 0")))
    store("21, and a count that is too large", 21, font(glyph(65), glyph(65), count=THIRTY))
    store("20, and a count that is too large", 20, font(glyph(65), glyph(66, "5 5 0 0"), count=4))
    store("a count that is too small, then 21", 19, font(glyph(65), glyph(65), count=1))


# ---- the sample font of Adobe's specification of the format; its lines were not compared with the printed document

SAMPLE_HEAD = """STARTFONT 2.1
COMMENT This is a sample font in 2.1 format.
FONT -Adobe-Helvetica-Bold-R-Normal--24-240-75-75-P-65-ISO8859-1
SIZE 24 75 75
FONTBOUNDINGBOX 9 24 -2 -6
STARTPROPERTIES 19
FOUNDRY "Adobe"
FAMILY "Helvetica"
WEIGHT_NAME "Bold"
SLANT "R"
SETWIDTH_NAME "Normal"
ADD_STYLE_NAME ""
PIXEL_SIZE 24
POINT_SIZE 240
RESOLUTION_X 75
RESOLUTION_Y 75
SPACING "P"
AVERAGE_WIDTH 65
CHARSET_REGISTRY "ISO8859"
CHARSET_ENCODING "1"
MIN_SPACE 4
FONT_ASCENT 21
FONT_DESCENT 7
COPYRIGHT "Copyright (c) 1987 Adobe Systems, Inc."
NOTICE "Helvetica is a registered trademark of Linotype Inc."
ENDPROPERTIES
CHARS 2""".split("\n")
J = """STARTCHAR j
ENCODING 106
SWIDTH 355 0
DWIDTH 8 0
BBX 9 22 -2 -6
BITMAP
0380 0380 0380 0380 0000 0700 0700 0700 0700 0E00 0E00 0E00 0E00 0E00 1C00 1C00 1C00 1C00 2C00 7800 F000 E000
ENDCHAR""".split("\n")
J[6:7] = J[6].split()
QUOTERIGHT = """STARTCHAR quoteright
ENCODING 39
SWIDTH 223 0
DWIDTH 5 0
BBX 4 6 2 12
ATTRIBUTES 01C0
BITMAP
70
70
70
60
E0
C0
ENDCHAR""".split("\n")


def sample():
    store("the sample font of the specification, whose encodings fall", 21, [*SAMPLE_HEAD, *J, *QUOTERIGHT, "ENDFONT"])
    drawn("its glyphs exchanged", [*SAMPLE_HEAD, *QUOTERIGHT, *J, "ENDFONT"], b"'j", 17, [
        ".....###. .........", ".....###. .........", ".....###. ......###", ".....##.. ......###", "....###.. ......###", "....##... ......###",
        "......... .........", "......... .....###.", "......... .....###.", "......... .....###.", "......... .....###.", "......... ....###..",
        "......... ....###..", "......... ....###..", "......... ....###..", "......... ....###..", "......... ...###...", "......... ...###...",
        "......... ...###...", "......... ...###...", "......... ..#.##...", "......... .####....", "......... ####.....", "......... ###......"])


def fill():
    """Keeps each file once."""
    if not FILES:
        for part in (lines_missing, lines_moved, keywords, numbers, cells, boxes, bitmaps, drawings, encodings, counts, layout, order, sample):
            part()
    return FILES


def hash_of(font_bytes):
    h = 0
    for b in font_bytes:
        h = (31 * h + b) % 1_000_003
    return h


def main():
    stdin, stdout = b"", ""
    for k, (name, refusal, content) in enumerate(fill()):
        answer = bdf_model.read(content)
        assert (answer[1] if answer[0] == "refused" else 0) == refusal, (name, answer[:2], refusal)
        stdin += struct.pack("<I", len(content)) + content
        stdout += f"{k} refused {refusal}\n" if refusal else f"{k} font {len(answer[1])} {hash_of(answer[1])}\n{k} short 17\n"
        print(k, refusal, name)
    assert len(stdin) <= MOST_INPUT, len(stdin)
    folder = os.path.join(os.path.dirname(os.path.abspath(__file__)), "..", "crates", "stored_fonts")
    os.makedirs(folder, exist_ok=True)
    with open(os.path.join(folder, "stdin"), "wb") as f:
        f.write(stdin)
    with open(os.path.join(folder, "stdout"), "w", encoding="ascii") as f:
        f.write(stdout)


if __name__ == "__main__":
    main()
