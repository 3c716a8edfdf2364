"""Compares what read_bdf writes with the model's answer, and its fonts with what FreeType's own BDF reader has: every glyph's bitmap, its place in
the cell and its encoding.

    python3 tests/bdf_compare.py READ_BDF READ_FONT FREETYPE FOLDER [FONT.bdf ..]

READ_BDF is the proved program; READ_FONT that of tests/host/read_font.c, for files that are too long for it; FREETYPE that of tests/freetype.c. '-' stands
for one that could not be built, and what needs it is left out. The FOLDER is for files that are made. Each
font is read as it stands, and with the box of each glyph cut to its ink, which must give the same font. One that is refused as it stands is tidied for
that, and what was changed is said. Prints 'ok NAME' or 'FAILED NAME: why' for each test; the exit status is 1 if one failed.
"""
import pathlib
import random
import re
import struct
import subprocess
import sys

sys.dont_write_bytecode = True
import bdf_model  # noqa: E402
import stored_fonts  # noqa: E402
from bdf_fonts import damaged  # noqa: E402

SEED, DAMAGES = 4127, 300
ROOT = pathlib.Path(__file__).resolve().parents[1]
GEORGIAN = ROOT / "samples/fonts/georgian-9x18.bdf"
GLYPH = re.compile(rb"^[ \t]*STARTCHAR\b.*?^[ \t]*ENDCHAR[ \t]*$\n?", re.M | re.S)
GLYPH_WORDS = (b"STARTCHAR", b"ENCODING", b"SWIDTH", b"DWIDTH", b"BBX", b"ATTRIBUTES")


class Difference(Exception):
    """What differs, in one line."""


def written(content, program=None):
    """What read_bdf, or another program, writes for a file."""
    return subprocess.run([program or sys.argv[1]], input=content, capture_output=True, check=True).stdout


def modelled(content):
    answer = bdf_model.read(content)
    return answer[1] if answer[0] == "font" else f"refused {answer[1]}\n".encode("ascii")


def expect_model(content, what, program=None):
    """That read_bdf, or another program, writes what the model gives; gives it."""
    said, expected = written(content, program), modelled(content)
    if said != expected:
        at = next((k for k, (a, b) in enumerate(zip(said, expected)) if a != b), min(len(said), len(expected)))
        raise Difference(f"{what}: {len(said)} bytes, the model's are {len(expected)}, and byte {at} is the first that differs: {said[:12]!r}, {expected[:12]!r}")
    return said


# ---- files made from others

def glyphs_of(content):
    """What stands before the glyphs, and each glyph's text."""
    text = content.replace(b"\r\n", b"\n")
    first = GLYPH.search(text)
    return text[:first.start()] if first else text, GLYPH.findall(text)


def values(text, keyword):
    return [int(word) for word in re.search(rb"^[ \t]*" + keyword + rb"[ \t]+(.*)$", text, re.M)[1].split()]


def with_values(text, keyword, *numbers):
    return re.sub(rb"^[ \t]*" + keyword + rb"[ \t].*$", keyword + b" " + " ".join(map(str, numbers)).encode("ascii"), text, count=1, flags=re.M)


def cut_to_ink(content):
    """The file with each glyph's box cut to its ink; that of a blank glyph has no size, and stands at the cell's corner."""
    head, glyphs = glyphs_of(content)
    cell = values(head, b"FONTBOUNDINGBOX")
    made = []
    for glyph in glyphs:
        width, height, x, y = values(glyph, b"BBX")
        start, _, rest = glyph.partition(b"BITMAP")
        rows = [int(row or b"0", 16) >> (-width % 8) for row in rest.split(b"\n")[1:height + 1]]
        inked = [k for k, row in enumerate(rows) if row]
        if inked:
            all_rows = 0
            for row in rows:
                all_rows |= row
            left, right = width - all_rows.bit_length(), (all_rows & -all_rows).bit_length() - 1
            rows = rows[inked[0]:inked[-1] + 1]
            box = width - left - right, len(rows), x + left, y + height - 1 - inked[-1]
            digits = 2 * ((box[0] + 7) // 8)
            lines = [f"{(row >> right) << (-box[0] % 8):0{digits}X}".encode("ascii") for row in rows]
        else:
            box, lines = (0, 0, *cell[2:]), []
        made.append(b"\n".join([with_values(start, b"BBX", *box) + b"BITMAP", *lines, b"ENDCHAR\n"]))
    return head + b"".join(made) + b"ENDFONT\n"


def tidied(content):
    """The file so that it may be read, and what was changed: only lines of BDF 2.1 are kept, glyphs that are no characters or have an encoding that is
    there already are dropped, the others stand by encoding, and the cell is as large as all their boxes need."""
    head, glyphs = glyphs_of(content)
    notes, kept = [], {}
    for glyph in glyphs:
        lines = [line for line in glyph.partition(b"BITMAP")[0].split(b"\n") if line.split()[:1] and line.split()[0] in GLYPH_WORDS]
        code = values(glyph, b"ENCODING")[0]
        if 0 <= code <= 0x10FFFF and not 0xD800 <= code <= 0xDFFF and code not in kept:
            kept[code] = b"\n".join([*lines, b"BITMAP"]) + glyph.partition(b"BITMAP")[2]
    if len(kept) < len(glyphs):
        notes.append(f"{len(glyphs) - len(kept)} glyphs without a character of their own dropped")
    if list(kept) != sorted(kept):
        notes.append("glyphs put in the order of their encodings")
    cell = values(head, b"FONTBOUNDINGBOX")
    boxes = [cell, *(values(glyph, b"BBX") for glyph in kept.values())]
    left, foot = min(x for _, _, x, _ in boxes), min(y for _, _, _, y in boxes)
    hull = max(x + width for width, _, x, _ in boxes) - left, max(y + height for _, height, _, y in boxes) - foot, left, foot
    if list(hull) != cell:
        notes.append(f"FONTBOUNDINGBOX {' '.join(map(str, cell))} made {' '.join(map(str, hull))}")
    name, size = (re.search(rb"^" + word + rb"[ \t].*$", head, re.M)[0] for word in (b"FONT", b"SIZE"))
    properties = re.search(rb"^STARTPROPERTIES.*?^ENDPROPERTIES.*?\n", head, re.M | re.S)
    parts = [b"STARTFONT 2.1\n" + name + b"\n" + b" ".join(size.split()[:4]) + b"\n", f"FONTBOUNDINGBOX {' '.join(map(str, hull))}\n".encode("ascii"),
             properties[0] if properties else b"", f"CHARS {len(kept)}\n".encode("ascii"), *(kept[code] for code in sorted(kept)), b"ENDFONT\n"]
    return b"".join(parts), notes or ["other lines than those of BDF 2.1 dropped"]


# ---- FreeType

def encodings(mapping):
    """The characters that the font's mapping lists: singly, and U+0000 as a range of itself."""
    text = mapping.decode("utf-8")
    return [ord(c) for c in (text[2:] if text.startswith("\0\0\0") else text)]


def freetype_glyphs(content, folder):
    """What FreeType has of a file, which it gets without ATTRIBUTES: it does not know them. None if it does not take the file."""
    path = folder / "font.bdf"
    path.write_bytes(re.sub(rb"^[ \t]*ATTRIBUTES\b.*\n", b"", content, flags=re.M))
    run = subprocess.run([sys.argv[3], path], capture_output=True, check=False)
    return run.stdout.decode("ascii").splitlines() if run.returncode == 0 and not run.stdout.startswith(b"font -1") else None


def compare_with_freetype(content, font, folder):
    """Holds each glyph of a font to FreeType's; gives how many were compared."""
    found = freetype_glyphs(content, folder)
    if found is None:
        raise Difference("FreeType does not take the file")
    head, *lines = found
    atlas_length, mapping_at = struct.unpack_from("<II", font, 4)
    width, height = font[18:20]
    _, _, left, foot = values(glyphs_of(content)[0], b"FONTBOUNDINGBOX")
    codes = encodings(font[mapping_at:])
    theirs = [line.split() for line in lines]
    if head != f"font {len(codes)}" or [int(glyph[0]) for glyph in theirs] != codes:
        raise Difference(f"the encodings: {len(codes)} here, and FreeType has '{head}' and {len(theirs)} in its map")
    if font[21] != max(0, height + foot - 1):
        raise Difference(f"the baseline is {font[21]}")
    atlas = font[28:28 + atlas_length]
    rows = [int.from_bytes(atlas[at:at + 2 * width], "big") for at in range(0, atlas_length, 2 * width)] if width else []
    for k, (code, *numbers, digits) in enumerate(theirs):
        glyph_left, top, across, down = map(int, numbers)
        stride = (across + 7) // 8 * 2
        cell = [0] * height
        for row in range(down if across else 0):
            at = height + foot - top + row
            if not 0 <= at < height or not 0 <= glyph_left - left <= width - across:
                raise Difference(f"FreeType has glyph {code} outside its cell")
            cell[at] = int(digits[row * stride:(row + 1) * stride], 16) >> (4 * stride - across) << (width - (glyph_left - left) - across)
        ours = [row >> (16 - 1 - k % 16) * width & (1 << width) - 1 for row in rows[k // 16 * height:(k // 16 + 1) * height]]
        if width and ours != cell:
            raise Difference(f"glyph {k}, encoding {code}: {ours} here, and FreeType's {cell}")
    return len(codes)


# ---- tests

def report(name, test):
    """Runs a test, which gives what it has to say; gives whether it was good."""
    try:
        said = test()
        print(f"ok {name}" + (f" ({said})" if said else ""), flush=True)
        return True
    except Exception as error:  # a test that stops in any way has failed
        print(f"FAILED {name}: {' '.join(str(error).split())[:400] or type(error).__name__}", flush=True)
        return False


def stored():
    files = stored_fonts.fill()
    for name, _, content in files:
        expect_model(content, name)
    return f"{len(files)} files"


def damaged_files():
    chance = random.Random(SEED)
    good = [content for _, refusal, content in stored_fonts.fill() if refusal == 0]
    for k in range(DAMAGES):
        content = damaged(chance.choice(good), chance)
        expect_model(content, f"damaged file {k}, {content!r}")
    return f"{DAMAGES} files, seed {SEED}"


def mapping_limit():
    """Mappings of 65,535 bytes, and of one to four more; and one that passes the limit on a line that is refused with 21."""
    def glyph(code):
        return f"STARTCHAR g\nENCODING {code}\nSWIDTH 0 0\nDWIDTH 0 0\nBBX 0 0 0 0\nBITMAP\nENDCHAR\n"

    codes = [0x800, *range(0x10000, 0x10000 + 16_383)]
    sizes = []
    for first, more in (([], [0x10FFFF]), ([], [0x20]), ([0x41], []), ([0xE9], []), ([0], []), ([], [])):
        listed = [*first, *codes, *more]
        head = f"STARTFONT 2.1\nFONT f\nSIZE 1 1 1\nFONTBOUNDINGBOX 1 1 0 0\nCHARS {len(listed)}\n"
        sizes.append(expect_model((head + "".join(map(glyph, listed)) + "ENDFONT\n").encode("ascii"), f"{len(listed)} glyphs")[:10])
    if sizes[:5] != [b"refused 20", b"refused 21", b"refused 20", b"refused 20", b"refused 20"] or sizes[5][:1] != b"\x1c":
        raise Difference(f"{sizes}")
    return f"{len(sizes)} files"


def long_files():
    base = stored_fonts.file(stored_fonts.BASE)
    files = [b"COMMENT " + b"x" * 10_000_000 + b"\n" + base, b"\n" * 10_000_000 + base, bytes(10_000_000),
             base.replace(b"ENCODING 65", b"ENCODING " + b"0" * 1_000_000 + b"65"), base.replace(b"CHARS 2", b"CHARS " + b"9" * 1_000_000)]
    for k, content in enumerate(files):
        expect_model(content, f"file {k}", sys.argv[2])
    if written(files[0]) != b"too long\n":
        raise Difference("read_bdf does not say that file 0 is too long")
    return f"{len(files)} files"


def test_font(path, folder):
    """The tests of one font; gives how many failed."""
    name, content = path.name, path.read_bytes()
    answer = bdf_model.read(content)
    failed = not report(f"{name}: read_bdf writes what the model gives", lambda: expect_model(content, name) and None)
    if answer[0] == "refused":
        line = bdf_model.Lines(content).lines[answer[2] - 1][:60]
        print(f"    {name} is refused with {answer[1]} at line {answer[2]}: {line!r}")
        content, notes = tidied(content)
        answer = bdf_model.read(content)
        print(f"    tidied: {'; '.join(notes)}")
        name = f"{name}, tidied"
        failed += not report(f"{name}: read_bdf writes what the model gives", lambda: expect_model(content, name) and None)
        if answer[0] == "refused":
            print(f"    {name} is refused with {answer[1]} at line {answer[2]}, and not compared with FreeType")
            return failed
    cut = cut_to_ink(content)
    failed += not report(f"{name}: the same font with boxes cut to the ink", lambda: same_font(cut, content))
    if sys.argv[3] != "-":
        for kind, file in (("", content), (", boxes cut to the ink", cut)):
            failed += not report(f"{name}{kind}: the glyphs are FreeType's", lambda file=file: f"{compare_with_freetype(file, written(file), folder)} glyphs")
    return failed


def same_font(cut, content):
    if expect_model(cut, "cut") != written(content):
        raise Difference("another font")


def test_sample(path):
    """That each glyph of the sample's font stands so in the font that it was cut from."""
    whole = {values(glyph, b"ENCODING")[0]: glyph for glyph in glyphs_of(path.read_bytes())[1]}
    glyphs = glyphs_of(GEORGIAN.read_bytes())[1]
    for glyph in glyphs:
        if whole[values(glyph, b"ENCODING")[0]].split() != glyph.split():
            raise Difference(f"encoding {values(glyph, b'ENCODING')[0]}")
    return f"{len(glyphs)} glyphs"


def test_stored_with_freetype(folder):
    """The good stored files that FreeType takes; left out are those without glyphs, to which it gives 64, and those with offsets beyond its 16 bits."""
    compared, left = 0, []
    for name, refusal, content in stored_fonts.fill():
        if refusal != 0 or bdf_model.read(content)[1][12:14] == b"\0\0" or b"1000000000" in content:
            continue
        if freetype_glyphs(content, folder) is None:
            left.append(name)
            continue
        try:
            compare_with_freetype(content, written(content), folder)
            compared += 1
        except Difference as difference:
            raise Difference(f"{name}: {difference}") from None
    return f"{compared} files, and {len(left)} that it does not take: {'; '.join(left)}"


def main():
    if len(sys.argv) < 5:
        sys.exit("usage: python3 tests/bdf_compare.py READ_BDF READ_FONT FREETYPE FOLDER [FONT.bdf ..]")
    folder, fonts = pathlib.Path(sys.argv[4]), [pathlib.Path(word) for word in sys.argv[5:]]
    tests = [("stored files: read_bdf writes what the model gives", stored), ("damaged files: read_bdf writes what the model gives", damaged_files),
             ("mappings at their limit: read_bdf writes what the model gives", mapping_limit)]
    if sys.argv[2] != "-":
        tests.append(("long files: the call gives what the model gives", long_files))
    if sys.argv[3] != "-":
        tests.append(("stored files: the glyphs are FreeType's", lambda: test_stored_with_freetype(folder)))
    tests += [("the sample's glyphs are those of 9x18.bdf", lambda path=path: test_sample(path)) for path in fonts if path.name == "9x18.bdf"]
    failed = sum(not report(name, test) for name, test in tests)
    failed += sum(test_font(path, folder) for path in [GEORGIAN, *fonts])
    return 1 if failed else 0


if __name__ == "__main__":
    sys.exit(main())
