"""Why a sheet is refused: the number, the byte and the cause. The numbers, and the order of the tests, are those of docs/SHEET.md."""
from collections import namedtuple

from .layout import (ALIGNMENTS, BASELINES, EDITION, HEADER_SIZE, HEIGHT_KINDS, MOST_AREA, MOST_ATLAS_WIDTH, MOST_BYTES, MOST_CELL, MOST_FONTS,
                     MOST_HEIGHT, MOST_ITEMS, MOST_SIDE, MOST_SLOT, MOST_SPELLED, font_of, font_record, header_of, item_of, item_record,
                     run_length, spelled)

# The byte is the first of the field, sequence or tail that is at fault.
Refusal = namedtuple("Refusal", "number byte cause")


def explain(sheet):
    """The first refusal of a sheet, or None for a sheet that is accepted."""
    return next(refusals(sheet), None)


def refusals(sheet):
    """The refusals of a sheet. The first is right; one after it may be a result of an earlier one."""
    yield from length_refusals(sheet)
    header = header_of(sheet)
    yield from header_refusals(header)
    yield from layout_refusals(sheet, header)
    for number in range(header.fonts):
        yield from font_refusals(sheet, number)
    for number in range(header.items):
        yield from item_refusals(sheet, header, number)


def length_refusals(sheet):
    if len(sheet) < HEADER_SIZE:
        yield Refusal(1, len(sheet), f"the file ends here, and the header alone takes {HEADER_SIZE} bytes")
    if len(sheet) > MOST_BYTES:
        yield Refusal(1, MOST_BYTES, f"the file goes on here, and a sheet has at most {MOST_BYTES} bytes")
    header = header_of(sheet)
    if header.length != len(sheet):
        yield Refusal(1, 20, f"the length field says {header.length} bytes, and the file has {len(sheet)}")
    if header.zero != 0:
        yield Refusal(1, 10, f"the header's zero field is {header.zero}, and must be 0")


def header_refusals(header):
    if header.edition != EDITION:
        yield Refusal(2, 0, f"the edition is {header.edition}, and {EDITION} is the only one")
    for byte, name, side in ((2, "width", header.width), (4, "height", header.height)):
        if not 1 <= side <= MOST_SIDE:
            yield Refusal(3, byte, f"the frame's {name} is {side}, outside 1 to {MOST_SIDE}")
    if header.width * header.height > MOST_AREA:
        yield Refusal(3, 2, f"the frame of {header.width} by {header.height} has {header.width * header.height} pixels, "
                            f"and at most {MOST_AREA} are allowed")
    if header.fonts > MOST_FONTS:
        yield Refusal(4, 7, f"there are {header.fonts} fonts, and at most {MOST_FONTS} are allowed")
    if header.items > MOST_ITEMS:
        yield Refusal(4, 8, f"there are {header.items} items, and at most {MOST_ITEMS} are allowed")


def layout_refusals(sheet, header):
    items_at = item_record(header.fonts, 0)
    if header.fonts_at != HEADER_SIZE:
        yield Refusal(5, 12, f"the fonts' offset is {header.fonts_at}, and the fonts stand at {HEADER_SIZE}")
    if header.items_at != items_at:
        yield Refusal(5, 16, f"the items' offset is {header.items_at}, and with {header.fonts} fonts the items stand at {items_at}")
    at = item_record(header.fonts, header.items)
    if at > len(sheet):
        yield Refusal(5, len(sheet), f"the file ends here, and the records of {header.fonts} fonts and {header.items} items end at {at}")
        return
    for name, offset_byte, offset, size_byte, size in pieces(sheet, header):
        if offset != at:
            yield Refusal(5, offset_byte, f"the offset of {name} is {offset}, and what stands before it ends at {at}")
        at += size
        if at > len(sheet):
            yield Refusal(5, size_byte, f"{name} of {size} bytes would end at {at}, and the file ends at {len(sheet)}")
    if at < len(sheet):
        yield Refusal(5, at, f"the last piece ends here, and the file goes on to {len(sheet)}")


def pieces(sheet, header):
    """Each piece's name, the byte of its offset, its offset, the byte of its length, and its length."""
    for number in range(header.fonts):
        record, font = font_record(number), font_of(sheet, number)
        yield f"font {number}'s atlas", record, font.atlas_at, record + 4, font.atlas_length
        yield f"font {number}'s mapping", record + 8, font.mapping_at, record + 12, font.mapping_length
    for number in range(header.items):
        record, item = item_record(header.fonts, number), item_of(sheet, number)
        yield f"item {number}'s slot", record + 4, item.slot_at, record + 8, item.slot_size


def font_refusals(sheet, number):
    record, font = font_record(number), font_of(sheet, number)
    for byte, name, value, most in ((16, "atlas width", font.atlas_width, MOST_ATLAS_WIDTH), (18, "cell width", font.cw, MOST_CELL),
                                    (19, "cell height", font.ch, MOST_CELL), (20, "spacing", font.s, MOST_CELL)):
        if value > most:
            yield Refusal(6, record + byte, f"font {number}'s {name} is {value}, above {most}")
    if font.zero != 0:
        yield Refusal(6, record + 26, f"font {number}'s zero field is {font.zero}, and must be 0")
    mapping = sheet[font.mapping_at:font.mapping_at + font.mapping_length]
    fault = ill_formed(mapping)
    if fault is not None:
        yield Refusal(7, font.mapping_at + fault, f"font {number}'s mapping has an ill-formed sequence, {sequence(mapping, fault)}")
        return
    text = mapping.decode("utf-8")
    total = 0
    for at, first, last in spelled([ord(c) for c in text]):
        total += run_length(first, last)
        if total > MOST_SPELLED:
            byte = font.mapping_at + len(text[:at].encode("utf-8"))
            yield Refusal(8, byte, f"font {number}'s mapping spells {total} characters with the entry here, and at most {MOST_SPELLED} are allowed")
            return


def item_refusals(sheet, header, number):
    record, item = item_record(header.fonts, number), item_of(sheet, number)
    if item.slot_size > MOST_SLOT:
        yield Refusal(9, record + 8, f"item {number}'s slot has {item.slot_size} bytes, above {MOST_SLOT}")
    if item.text_length > item.slot_size:
        yield Refusal(9, record + 10, f"item {number}'s text has {item.text_length} bytes, and its slot {item.slot_size}")
    if item.font >= header.fonts:
        yield Refusal(9, record + 12, f"item {number}'s font number is {item.font}, and the sheet's fonts are {header.fonts}, numbered from 0")
    for byte, name, value, most in ((13, "text mode", item.text_mode, 1), (15, "background mode", item.background_mode, 1),
                                    (17, "underline mode", item.underline_mode, 2), (19, "strikethrough mode", item.strikethrough_mode, 2),
                                    (21, "alignment", item.alignment, len(ALIGNMENTS) - 1), (22, "baseline", item.baseline, len(BASELINES) - 1),
                                    (23, "height kind", item.height_kind, len(HEIGHT_KINDS) - 1)):
        if value > most:
            yield Refusal(9, record + byte, f"item {number}'s {name} is {value}, and the codes are 0 to {most}")
    if item.height_value > MOST_HEIGHT:
        yield Refusal(9, record + 24, f"item {number}'s height value is {item.height_value}, above {MOST_HEIGHT}")
    if item.zero != 0:
        yield Refusal(9, record + 26, f"item {number}'s zero field is {item.zero}, and must be 0")
    end = item.slot_at + item.text_length
    for byte in range(end, item.slot_at + item.slot_size):
        if sheet[byte] != 0:
            yield Refusal(9, byte, f"item {number}'s slot holds {sheet[byte]:02X} past its text of {item.text_length} bytes, where 00 must stand")
            break
    text = sheet[item.slot_at:end]
    fault = ill_formed(text)
    if fault is not None:
        yield Refusal(10, item.slot_at + fault, f"item {number}'s text has an ill-formed sequence, {sequence(text, fault)}")


def ill_formed(text):
    """Where the first sequence starts that RFC 3629 does not allow, or None."""
    try:
        text.decode("utf-8")
    except UnicodeDecodeError as error:
        return error.start
    return None


def sequence(text, at):
    """The bytes at a fault, as many as its lead byte asks for, and whether the text ends in it."""
    lead = text[at]
    length = 2 if 0xC0 <= lead < 0xE0 else 3 if 0xE0 <= lead < 0xF0 else 4 if 0xF0 <= lead < 0xF8 else 1
    part = text[at:at + length]
    return part.hex(" ").upper() + (" and then the end" if len(part) < length else "")
