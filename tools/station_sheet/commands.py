"""The commands of tools/sheet."""
import argparse
import os
import re
import sys

from . import Problem, named, one_line
from .bdf import plural
from .c_header import c_header
from .describe import describe
from .description import read_description, sheet_of
from .difference import differences
from .edit_list import TEXT, edit_of_words, item_names, make_edits, read_list
from .explain import explain
from .files import Files, blamed, input_name, is_standard_output, place_of, said, write_standard_output
from .layout import MOST_BYTES, header_of, item_of
from .picture import MOST_SCALE, png, read_page
from .programs import drawn_page, is_there, measured_items
from .show import show, unlisted_lines
from .warning import warnings

MOST_PAGE = 1 << 20
MOST_LINE = 600
STATUSES = """exit status: 0 done, or the sheet is accepted, or two sheets are the same; 1 the sheet, the description or an edit is wrong, or two sheets differ;
2 a wrong command, or a file that cannot be read or written, or for 'diff' a sheet that is refused. '-' in the place of a file is standard
input or output. docs/REFUSALS.md says what to do about each refusal."""


def note(text):
    """A line on standard error, if that takes one; of a very long one the middle is left out."""
    line = one_line(text)
    try:
        if sys.stderr is not None:
            print(f"sheet: {line if len(line) <= MOST_LINE else line[:MOST_LINE // 2] + ' .. ' + line[-MOST_LINE // 3:]}", file=sys.stderr)
    except OSError:
        sys.stderr = None


def refused(path, refusal):
    return f"{input_name(path)}: refused with {refusal.number} at byte {refusal.byte}: {refusal.cause}"


def accepted_sheet(files, path, status=1):
    """The bytes of a sheet that is accepted."""
    sheet = files.read(path, MOST_BYTES)
    refusal = explain(sheet)
    if refusal is not None:
        raise Problem(refused(path, refusal), status)
    return sheet


def run_new(arguments, files):
    description = read_description(files, arguments.description)
    name = input_name(arguments.description)
    with named(name):
        sheet = sheet_of(description)
        outputs = [(arguments.sheet, sheet)]
        if arguments.header is not None:
            outputs.append((arguments.header, c_header(description, sheet, arguments.header, arguments.description).encode("utf-8")))
    if not any(is_standard_output(path) for path, _ in outputs):
        numbers = [f"item {number}: {item.name}" for number, item in enumerate(description.items) if item.name]
        outputs.append(("-", said([f"{arguments.sheet}: {len(sheet)} bytes", *numbers])))
    files.prepare(outputs)
    for line in warnings(description):
        note(f"warning: {name}: {line}")
    if any(item.text for item in description.items) and not is_there("station_page"):
        note("target/bin/station_page is missing: 'tools/build.sh station_page' makes it, and 'new' then warns of items that paint nothing on the frame")
    files.finish()


def run_show(arguments, files):
    sheet = files.read(arguments.sheet, MOST_BYTES)
    refusal = explain(sheet)
    measured = measured_items(sheet, header_of(sheet).items) if refusal is None else None
    files.say(show(sheet, refusal, measured))
    if refusal is not None:
        raise Problem(refused(arguments.sheet, refusal))
    if measured is None and header_of(sheet).items > 0:
        note("target/bin/station_items is missing: 'tools/build.sh station_items' makes it, and 'show' then has the items' boxes, next positions and "
             "numbers of replaced characters")


def run_explain(arguments, files):
    refusal = explain(files.read(arguments.sheet, MOST_BYTES))
    files.say([f"{input_name(arguments.sheet)}: accepted" if refusal is None else refused(arguments.sheet, refusal)])
    return 0 if refusal is None else 1


def run_describe(arguments, files):
    sheet = accepted_sheet(files, arguments.sheet)
    name = one_line(os.path.basename(input_name(arguments.sheet)))
    files.write([(arguments.description, describe(sheet, name).encode("utf-8", "backslashreplace"))])


def run_diff(arguments, files):
    sheets = [accepted_sheet(files, path, 2) for path in (arguments.first, arguments.second)]
    lines = list(differences(*sheets))
    files.say(lines)
    return 1 if lines else 0


def run_set(arguments, files):
    sheet = sheet_to_edit(files, arguments.sheet)
    edit = edit_of_words(arguments.item, arguments.edit, item_names(files, arguments.names, sheet))
    write_edited(files, arguments.sheet, sheet, [edit], *make_edits(sheet, [edit]))


def run_edits(arguments, files):
    sheet = sheet_to_edit(files, arguments.sheet)
    edits = read_list(files, arguments.list, item_names(files, arguments.names, sheet))
    with named(input_name(arguments.list)):
        made = make_edits(sheet, edits)
    write_edited(files, arguments.sheet, sheet, edits, *made)


def sheet_to_edit(files, path):
    """The bytes of a sheet that is accepted, from a file of which another can take the place, or from standard input."""
    sheet = accepted_sheet(files, path)
    if path != "-" and place_of(path) is None:
        raise Problem(f"{path}: no file, and so no sheet that can be edited", 2)
    return sheet


def write_edited(files, path, sheet, edits, reply, edited):
    """Has an edited sheet take the place of the sheet, and says what the edits made of it, and the rectangle."""
    outputs = [(path, edited)]
    if not is_standard_output(path):
        area = f"rectangle at ({reply.left}, {reply.top}), {reply.width} by {reply.height}" if reply.width else "nothing to repaint"
        outputs.append(("-", said([*differences(sheet, edited), f"{path}: {plural(reply.made, 'edit')} made, {area}"])))
    files.prepare(outputs, edited=path)
    for item in sorted({edit.item for edit in edits if edit.kind == TEXT}):
        for line in unlisted_lines(edited, item_of(edited, item)):
            note(f"warning: {input_name(path)}: item {item}: {line.strip()}")
    files.finish()


def run_view(arguments, files):
    sheet = accepted_sheet(files, arguments.sheet)
    if arguments.page is None:
        page, name = drawn_page(sheet), "station_page"
    else:
        page, name = files.read(arguments.page, MOST_PAGE), input_name(arguments.page)
    width, height, greys = read_page(page, name)
    if (width, height) != header_of(sheet)[1:3]:
        raise Problem(f"{name}: the page is {width} by {height}, and the sheet's frame is not")
    files.write([(arguments.png, png(width, height, greys, arguments.scale))])


def scale(word):
    if not re.fullmatch(r"[0-9]{1,4}", word) or not 1 <= int(word) <= MOST_SCALE:
        raise argparse.ArgumentTypeError(f"a whole number from 1 to {MOST_SCALE} is needed")
    return int(word)


class Parser(argparse.ArgumentParser):
    """A parser whose errors are one line, also if its help cannot be written."""

    def error(self, message):
        raise Problem(f"{message}; 'sheet --help' lists the commands", 2)

    def print_help(self, file=None):
        with blamed("-"):
            write_standard_output(self.format_help().encode("utf-8"))


def parser():
    top = Parser(prog="sheet", description="Builds, prints, explains, describes, compares, edits and views station sheets.", epilog=STATUSES)
    commands = top.add_subparsers(dest="command", required=True, metavar="COMMAND")

    def command(name, run, text, *words):
        added = commands.add_parser(name, help=text, description=text, epilog=STATUSES)
        for word in words:
            added.add_argument(word.split(".")[0].lower(), metavar=word)
        added.set_defaults(run=run)
        return added

    new = command("new", run_new, "build a sheet from a description in TOML", "DESCRIPTION.toml", "SHEET")
    new.add_argument("--header", metavar="ITEMS.h", help="write a C header too: frame size, item numbers by name, slot sizes")
    command("show", run_show, "print a sheet's header, fonts and items with their offsets, and what station_items measures", "SHEET")
    command("explain", run_explain, "say why a sheet is refused and at which byte, or that it is accepted", "SHEET")
    back = command("describe", run_describe, "write the description of a sheet, from which 'new' builds the same bytes", "SHEET")
    back.add_argument("description", metavar="DESCRIPTION.toml", nargs="?", default="-")
    command("diff", run_diff, "print what differs between two sheets, by font, item and field", "FIRST", "SECOND")
    one = command("set", run_set, "change an item of a sheet: its text, place or style", "SHEET", "ITEM")
    one.add_argument("edit", metavar="EDIT", nargs="+", help="text TEXT, place X Y, or style KEY=VALUE ..; a TEXT that begins with '-' stands behind '--'")
    many = command("edits", run_edits, "make a list of edits in TOML on a sheet, or none of them", "SHEET", "LIST.toml")
    for added in (one, many):
        added.add_argument("--names", metavar="DESCRIPTION.toml", help="the sheet's description, so that an item may go by its name")
    view = command("view", run_view, "write a PNG of a sheet's page, drawn by target/bin/station_page", "SHEET", "PNG")
    view.add_argument("--page", metavar="PAGE.pgm", help="take this page of the sheet, and draw nothing")
    view.add_argument("--scale", metavar="N", type=scale, default=1, help=f"make each pixel N by N, 1 to {MOST_SCALE}")
    return top


def main(words):
    """Runs a command; gives the exit status."""
    files = Files()
    try:
        arguments = parser().parse_args(words)
        return arguments.run(arguments, files) or 0
    except Problem as problem:
        note(str(problem))
        return problem.status
    finally:
        files.discard()
