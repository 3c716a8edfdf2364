"""Makes samples/hydrograph.day and samples/georgian.day, a day of a logger's edits on each of the two sheets, and tests/host/radio.stdout, what they
come to by radio.

The rectangles are those of the model of the paper (paper_model.py), which uses nothing of the crates.
"""
import datetime
import math
import os
import sys

sys.dont_write_bytecode = True
import paper_model as model  # noqa: E402

ROOT = os.path.join(os.path.dirname(os.path.abspath(__file__)), "..")
# items of the hydrograph, and of the page in Georgian
STAGE, DISCHARGE, TREND, RAIN, RAIN_BARS, STAGE_BARS, ALARM_LINE, ALARM, DATES, WEATHER = 4, 6, 7, 8, 10, 11, 20, 21, 22, 26
LEVEL, FLOW, PRECIPITATION, TEMPERATURE, TIME = 4, 5, 6, 7, 9
BLOCKS = " ▁▂▃▄▅▆▇█"
# of two hours each, in eighths of a bar, from the day before on
SHOWERS = 2, 4, 6, 7, 5, 4, 2, 1, 1, 0, 0, 0, 0, 0, 0, 0, 0, 0, 1, 3, 5, 2, 0, 0
FORM = '# Each line is an edit: text ITEM "TEXT", with \\n for a line feed; place ITEM X Y; or style ITEM and its 8 bytes.'
HYDROGRAPH = """\
# A day of a logger's edits on hydrograph.sheet, made by tests/day.py: 96 readings, a quarter of an hour apart. The flood has its peak at 07:00. The alarm's
# line moves with the stage; its text goes on and off until 06:00, is then underlined, and line and text are hidden from 14:00 on, below 2.25 m. Every two
# hours the bars move with their dates, one of which is hidden where it has no room.
"""
GEORGIAN = """\
# The same day's readings on georgian.sheet, made by tests/day.py: texts alone, in a font whose underline lies below its cells and which no reading has.
"""


class Day:
    """The edits as lines, their replies, and the edited sheet. An edit that would change nothing is left out."""

    def __init__(self, name, head):
        with open(os.path.join(ROOT, "samples", name + ".sheet"), "rb") as file:
            self.sheet = bytearray(file.read())
        self.name, self.lines, self.replies = name, [head + FORM], []

    def make(self, line, call, item, *data):
        before = bytes(self.sheet)
        reply = call(self.sheet, None, item, *data)
        assert reply[0] == 0, line
        if self.sheet != before:
            self.lines.append(line)
            self.replies.append(reply)

    def text(self, item, text):
        self.make(f'text {item} "{text}"'.replace("\n", "\\n"), model.set_text, item, text.encode())

    def place(self, item, x, y):
        self.make(f"place {item} {x} {y}", model.set_place, item, x, y)

    def style(self, item, *style):
        self.make(f"style {item} {' '.join(map(str, style))}", model.set_style, item, bytes(style))

    def bar(self, item, eighths, moves):
        """A new last bar, which takes the place of the old one or moves the others."""
        bars = model.item_at(self.sheet, item).text.decode()
        self.text(item, bars[moves:35 + moves] + BLOCKS[min(max(math.floor(eighths), 0), 8)])


def stage(hours):
    if hours < 0:
        return 2.314 + hours / 30
    return 2.314 + 0.29 * math.sin(math.pi * hours / 14) if hours < 7 else 1.75 + 0.854 * math.exp((7 - hours) / 13)


def rain(hours):
    """All rain up to an hour of the day, in eighths of a bar."""
    return sum(eighths * min(max(hours / 2 + 12 - k, 0), 1) for k, eighths in enumerate(SHOWERS))


def rain_of_day(hours):
    """That of the last 24 hours, in millimetres."""
    return (rain(hours) - rain(hours - 24)) * 18.5 / 32


def discharge(height):
    return 41.8 * ((height - 0.6) / 1.714) ** 1.7


def readings(day, hours):
    height, risen, swing = stage(hours), stage(hours) - stage(hours - 6), math.sin(math.pi * hours / 12)
    drawn = datetime.datetime(2031, 3, 17) + datetime.timedelta(hours=hours)
    day.text(STAGE, f"{height:.3f} m")
    day.text(DISCHARGE, f"{discharge(height):.1f} m³/s")
    day.text(TREND, f"{'↑' if risen > 0 else '↓'} {abs(risen):.2f} m in 6 h")
    day.text(RAIN, f"{rain_of_day(hours):.1f} mm in 24 h")
    day.text(WEATHER, f"Air {7.4 - 3 * swing:.1f} °C  Water {5.1 - 0.5 * swing:.1f} °C  Battery {12.6 - 0.3 * swing:.1f} V\n"
                      f"Drawn {drawn:%Y-%m-%d %H:%M} UTC")


def bars(day, hours, moves):
    day.bar(RAIN_BARS, 8 - rain(hours) + rain(2 * math.ceil(hours / 2) - 2), moves)
    for row in range(7):
        day.bar(STAGE_BARS + row, 32 * (stage(hours) - 2.5 + 0.25 * row), moves)


def dates(day, moves):
    """The first is hidden when it would pass the chart's left edge, and comes in at the right as the fourth."""
    if moves == 3:
        day.style(DATES, 0, 80, 0, 0, 0, 0, 0, 0)
        day.text(DATES, "17 March")
    for k in range(3):
        day.place(DATES + k, 65 + 72 * k - 6 * moves + (216 if k == 0 and moves >= 3 else 0), 152)
    if moves == 10:
        day.style(DATES, 1, 80, 0, 0, 0, 0, 0, 0)


def alarm(day, hours):
    above, noted = stage(hours) - 2.25, hours >= 6
    shown = above > 0 and (noted or hours % 0.5 == 0)
    day.text(ALARM, f"Alarm {above:+.2f} m")
    day.place(ALARM_LINE, 30, 93 - round(40 * above))
    day.style(ALARM_LINE, 0, 0, 0, 0, 0, 0, 2 if above > 0 else 0, 16)
    day.style(ALARM, int(shown), 16, 0, 0, int(shown and noted), 0, 0, 0)


def georgian_readings(day, hours):
    height, swing = stage(hours), math.sin(math.pi * hours / 12)
    for item, text in ((LEVEL, f"{height:.2f} მ"), (FLOW, f"{discharge(height):.1f} მ³/წმ"), (PRECIPITATION, f"{rain_of_day(hours):.1f} მმ"),
                       (TEMPERATURE, f"{7.4 - 3 * swing:.1f} °C"), (TIME, f"{int(hours):02}:{int(hours % 1 * 60):02}")):
        day.text(item, text.replace(".", ","))


def write(path, text):
    with open(os.path.join(ROOT, path), "w", encoding="utf-8") as file:
        file.write(text)


def main():
    days = hydrograph, georgian = Day("hydrograph", HYDROGRAPH), Day("georgian", GEORGIAN)
    for quarter in range(1, 97):
        hours, moves = quarter / 4, quarter % 8 == 1
        for day in days:
            day.lines.append(f"# {quarter // 4:02}:{quarter % 4 * 15:02}")
        georgian_readings(georgian, hours)
        readings(hydrograph, hours)
        bars(hydrograph, hours, moves)
        if moves:
            dates(hydrograph, quarter // 8 + 1)
        alarm(hydrograph, hours)
    said = ""
    for day in days:
        write(f"samples/{day.name}.day", "\n".join(day.lines) + "\n")
        sides = [reply[3:] for reply in day.replies]
        said += f"{len(sides)} edits, {sum(w * h for w, h in sides)} greys, {sides.count((0, 0))} without a rectangle\n"
    write("tests/host/radio.stdout", said)


if __name__ == "__main__":
    main()
