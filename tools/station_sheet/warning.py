"""What is odd in a description and no fault: items that paint nothing on the frame."""
from . import Problem
from .description import GREYS, assemble
from .picture import read_page
from .programs import is_there, measured_items, run


def warnings(description):
    """A line for each oddity: those of the reading, then those of the items."""
    yield from dict.fromkeys(description.warnings)
    for item in description.items:
        oddity = text_or_style(item) or drawing(item, description)
        if oddity:
            yield f"{item.table.where()}: {oddity}"


def text_or_style(item):
    """An empty text with room for a new one is no oddity."""
    if item.slot == 0:
        return "paints nothing: it has no text, and no slot for one"
    text, background, underline, strikethrough = item.style[::2]
    drawn = text or background or 2 in (underline, strikethrough)
    if not drawn and (underline or strikethrough):
        return "paints nothing: its decorations have the text's colour, and no text grey is set"
    return None if drawn else f"paints nothing: none of {', '.join(GREYS)}, underline and strikethrough is set"


def drawing(item, description):
    """What the proved programs tell, if station_page is there: that the item, alone on paper of a grey that it has not, changes no pixel."""
    if not item.text or not is_there("station_page"):
        return None
    paper = next(grey for grey in range(255, -1, -1) if grey not in item.style[1::2])
    width, height, _ = description.frame
    sheet = assemble((width, height, paper), description.fonts, [item])
    try:
        if set(read_page(run("station_page", sheet), "station_page")[2]) != {paper}:
            return None
        boxes = measured_items(sheet, 1)
    except Problem:
        return None
    if boxes is not None and lies_off(boxes[0], width, height):
        return f"lies off the frame of {width} by {height}: x is {item.place[0]}, y is {item.place[1]}"
    return "paints nothing on the frame: it lies off it, or its glyphs are blank"


def lies_off(measured, width, height):
    """Whether a measured box has no pixel of the frame; an empty one counts as the pixel at which it stands."""
    left, top, across, down = measured[:4]
    return left >= width or top >= height or left + max(across, 1) <= 0 or top + max(down, 1) <= 0
