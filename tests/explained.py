"""Tests of 'tools/sheet explain': the number that it says is the one that station_check answers, and the byte is that of the fault.

The program of tests/host/check.c, which answers station_check for many sheets, is the first argument of tests/tools.py.

Usage: python3 tests/explained.py > FILE
writes the samples, the stored sheets and the stored BDF files, each after its length, as the programs of tests/host read them.
"""
import collections
import random
import struct
import subprocess
import sys

import stored_fonts
import stored_sheets
from tool_runs import ROOT, SAMPLES, same
from station_sheet.explain import explain

SEED = 4127
DAMAGES = 6_000


def with_lengths(sheets):
    """Sheets as the programs of tests/host read them."""
    return b"".join(struct.pack("<I", len(b)) + b for b in sheets)


def library_codes(sheets):
    run = subprocess.run([sys.argv[1]], input=with_lengths(sheets), capture_output=True, check=True)
    return [int(line) for line in run.stdout.split()]


def compare_with_library(sheets):
    """Holds each sheet's explanation to the library's code; gives how often each code was met."""
    codes = library_codes(sheets)
    same("answers", len(codes), len(sheets))
    for k, (sheet, code) in enumerate(zip(sheets, codes)):
        refusal = explain(sheet)
        same(f"sheet {k}, explained", refusal.number if refusal else 0, code)
        if refusal:
            same(f"sheet {k}, byte in the file or at its end", 0 <= refusal.byte <= len(sheet), True)
        if code in (7, 10):
            same(f"sheet {k}, byte", refusal.byte, ill_formed_byte(sheet, refusal.byte))
    return collections.Counter(codes)


def ill_formed_byte(sheet, near):
    """In the mapping or text that holds a byte: where its well-formed part ends, by RFC 3629's syntax."""
    fonts, items = sheet[7], stored_sheets.number(sheet, 8, 2)
    pieces = [struct.unpack_from("<IH", sheet, 24 + 28 * k + 8) for k in range(fonts)]
    for k in range(items):
        slot, _, length = struct.unpack_from("<IHH", sheet, 24 + 28 * fonts + 28 * k + 4)
        pieces.append((slot, length))
    for start, length in pieces:
        if start <= near < start + length:
            return start + well_formed_length(sheet[start:start + length])
    return None


def well_formed_length(text):
    at = 0
    while size := next((n for n in range(1, 5) if at + n <= len(text) and stored_sheets.characters(text[at:at + n]) is not None), 0):
        at += size
    return at


def stored():
    """The sheets of crates/stored_sheets/stdin; the last record is cut."""
    data = (ROOT / "crates/stored_sheets/stdin").read_bytes()
    at, sheets = 0, []
    while (size := stored_sheets.number(data, at, 4)) <= len(data):
        sheets.append(data[at + 4:at + 4 + size])
        at += 4 + size
    return sheets


def test_explain_stored_sheets(_):
    sheets = stored()
    counts = compare_with_library(sheets)
    lines = (ROOT / "crates/stored_sheets/stdout").read_text(encoding="utf-8").splitlines()
    numbers = [int(line.split()[2]) if "refused" in line else 0 for line in lines if line != "cut"]
    same("stored answers", [explain(b).number if explain(b) else 0 for b in sheets], numbers)
    same("every code met", sorted(counts), list(range(11)))
    return f"{len(sheets)} sheets"


FAULTY_SEQUENCES = [bytes.fromhex(code) for code in stored_sheets.BAD]


def damaged(sheet, chance):
    """A sheet with one random damage."""
    b = bytearray(sheet)
    fonts, items = b[7], stored_sheets.number(b, 8, 2)
    records = min(len(b), 24 + 28 * fonts + 28 * items)
    kind = chance.randrange(9)
    if kind == 0:
        b[chance.randrange(len(b))] = chance.randrange(256)
    elif kind == 1:
        b[chance.randrange(records)] = chance.choice((0, 1, 2, 3, 4, 5, 64, 65, 127, 128, 255))
    elif kind == 2:
        at, size = chance.randrange(records - 1), chance.choice((2, 4))
        value = stored_sheets.number(b, at, size) + chance.choice((-1, 1, 256, -256))
        b[at:at + size] = (value % 256 ** size).to_bytes(size, "little")
    elif kind == 3:
        b = b[:chance.randrange(len(b))] if chance.random() < 0.5 else b + bytes(chance.randrange(1, 40))
        if len(b) >= 24 and chance.random() < 0.7:
            b[20:24] = len(b).to_bytes(4, "little")
    elif kind in (4, 5):
        at, size = chance.choice(pieces_of(b))
        part = chance.choice(FAULTY_SEQUENCES)
        if len(part) <= size:
            start = at + chance.randrange(size - len(part) + 1)
            b[start:start + len(part)] = part
    elif kind == 6 and fonts:
        at, size = struct.unpack_from("<IH", b, 24 + 28 * chance.randrange(fonts) + 8)
        span = stored_sheets.span(chance.randrange(0x800), chance.choice((0xFFFF, 0x10000, 0x10800, 0x1FFFF, 0x10FFFF)))
        if len(span) <= size <= len(b):
            start = at + chance.randrange(size - len(span) + 1)
            b[start:start + len(span)] = span
    elif kind == 7 and fonts:
        b[24 + 28 * chance.randrange(fonts) + chance.randrange(14, 28)] = chance.choice((0, 1, 4, 5, 64, 65, 255))
    elif items:
        o = 24 + 28 * fonts + 28 * chance.randrange(items)
        b[o + 10:o + 12] = chance.randrange(300).to_bytes(2, "little")
    return bytes(b)


def pieces_of(b):
    """Where the mappings and slots stand, or the header if there are none."""
    fonts, items = b[7], stored_sheets.number(b, 8, 2)
    found = [struct.unpack_from("<IH", b, 24 + 28 * k + 8) for k in range(fonts)]
    found += [struct.unpack_from("<IH", b, 24 + 28 * fonts + 28 * k + 4) for k in range(items)]
    return found or [(0, 24)]


def test_explain_damaged_samples(_):
    chance = random.Random(SEED)
    samples = [description.with_suffix(".sheet").read_bytes() for description in SAMPLES]
    sheets = []
    for k in range(DAMAGES):
        sheet = damaged(samples[k % len(samples)], chance)
        if k % 5 == 0 and len(sheet) >= 24 and sheet[7] <= 4 and stored_sheets.check(sheet) in (0, 6, 7, 8, 9, 10):
            sheet = damaged(sheet, chance)
        sheets.append(sheet)
    counts = compare_with_library(sheets)
    same("every code met", sorted(counts), list(range(11)))
    return f"{DAMAGES} sheets, seed {SEED}; " + ", ".join(f"{counts[n]} with {n}" for n in range(11))


def test_explain_bytes(_):
    """A change of the Greek sample, the refusal, and the byte. It has 1 font at 24 and 11 items at 52."""
    sheet = (ROOT / "samples/greek.sheet").read_bytes()
    mapping, slot = stored_sheets.number(sheet, 32, 4), stored_sheets.number(sheet, 52 + 28 + 4, 4)
    long_span = stored_sheets.span(0x10000, 0x20000)
    changes = [
        (20, b"\0", 1, 20), (21, b"\0", 1, 20), (11, b"\1", 1, 10), (0, b"\2", 2, 0), (1, b"\1", 2, 0), (3, b"\3", 3, 2), (4, b"\0", 3, 4),
        (2, b"\0\2\0\1", 3, 2), (7, b"\5", 4, 7), (8, b"\x41", 4, 8), (12, b"\x19", 5, 12), (17, b"\1", 5, 16), (24, b"\1", 5, 24), (28, b"\x81", 5, 32),
        (34, b"\1", 5, 32), (36, b"\0", 5, 56), (52 + 4, b"\0", 5, 56), (52 + 8, b"\0", 5, 84), (52 + 280 + 9, b"\1", 5, 340), (41, b"\5", 6, 40),
        (42, b"\x41", 6, 42), (43, b"\x41", 6, 43), (44, b"\x41", 6, 44), (51, b"\1", 6, 50), (mapping, b"\xff", 7, mapping),
        (mapping + 1, b"\x80", 7, mapping + 1), (mapping, b"AB" + long_span, 8, mapping + 2), (80 + 10, b"\xff", 9, 90), (80 + 12, b"\1", 9, 92),
        (80 + 13, b"\2", 9, 93), (80 + 15, b"\2", 9, 95), (80 + 17, b"\3", 9, 97), (80 + 19, b"\3", 9, 99), (80 + 21, b"\3", 9, 101),
        (80 + 22, b"\4", 9, 102), (80 + 23, b"\2", 9, 103), (80 + 25, b"\4", 9, 104), (80 + 27, b"\1", 9, 106), (slot + 45, b"\1", 9, slot + 45),
        (slot + 2, b"\xed\xa0\x80", 10, slot + 2),
    ]
    sheets = []
    for at, part, number, byte in changes:
        b = sheet[:at] + part + sheet[at + len(part):]
        refusal = explain(b)
        same(f"bytes {at} on", (refusal.number, refusal.byte) if refusal else None, (number, byte))
        sheets.append(b)
    for b, byte in ((sheet[:10], 10), (b"", 0), (sheet + bytes(65536), 65536)):
        same(f"a file of {len(b)}", explain(b)[:2], (1, byte))
    grown = sheet[:20] + (len(sheet) + 3).to_bytes(4, "little") + sheet[24:] + b"\0\0\0"
    same("bytes past the last slot", explain(grown)[:2], (5, len(sheet)))
    compare_with_library(sheets + [grown])
    return f"{len(changes) + 4} bytes"


if __name__ == "__main__":
    files = [content for _, _, content in stored_fonts.fill()]
    sys.stdout.buffer.write(with_lengths([path.with_suffix(".sheet").read_bytes() for path in SAMPLES] + stored() + files))
