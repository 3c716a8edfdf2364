"""The proved programs under target/bin: station_page draws a page, station_items measures the items, station_edits makes a list of edits. The tool itself
does none of these."""
import re
import struct
import subprocess
from collections import namedtuple
from pathlib import Path

from . import Problem
from .explain import explain

# The reply to a list of edits: a refusal or 0, how many edits were made, and the rectangle that holds theirs.
Batch = namedtuple("Batch", "code made left top width height")
# The most bytes of a list that station_edits takes.
MOST_LIST = 65_536
FOLDER = Path(__file__).resolve().parents[2] / "target" / "bin"


def is_there(name):
    return (FOLDER / name).is_file()


def run(name, given):
    """What a program writes for its standard input."""
    try:
        done = subprocess.run([FOLDER / name], input=given, capture_output=True, check=False)
    except OSError as error:
        raise Problem(f"target/bin/{name}: {error.strerror}", 2) from None
    if done.returncode != 0:
        raise Problem(f"target/bin/{name} ended with status {done.returncode}", 2)
    return done.stdout


def drawn_page(sheet):
    """The page of a sheet that is accepted."""
    if not is_there("station_page"):
        raise Problem("target/bin/station_page is missing: make it with 'tools/build.sh station_page', or give a page with --page", 2)
    return run("station_page", sheet)


def measured_items(sheet, count):
    """Of each item the measured box (left, top, width, height), the next position (x, y) and how many characters are replaced; None if the
    program is not there."""
    if not is_there("station_items"):
        return None
    try:
        rows = [[int(word) for word in line.split()] for line in run("station_items", sheet).decode("ascii").splitlines()]
    except ValueError:
        rows = []
    if [row[0] for row in rows if len(row) == 8] != list(range(count)) or len(rows) != count:
        raise Problem("target/bin/station_items wrote something else than eight numbers for each item", 2)
    return [row[1:] for row in rows]


def made_list(sheet, entries, count):
    """The reply to a list of so many edits on a sheet that is accepted, and the edited sheet; no bytes if an edit is refused."""
    if not is_there("station_edits"):
        raise Problem("target/bin/station_edits is missing: make it with 'tools/build.sh station_edits'", 2)
    line, _, edited = run("station_edits", struct.pack("<I", len(sheet)) + sheet + entries).partition(b"\n")
    numbers = re.fullmatch(rb"(\d+) (\d+) (-?\d+) (-?\d+) (\d+) (\d+)", line)
    reply = Batch(*map(int, numbers.groups())) if numbers else None
    if reply is None or (reply.made >= count or edited if reply.code else reply.made != count or explain(edited)):
        raise Problem("target/bin/station_edits wrote something else than a reply and the edited sheet", 2)
    return reply, edited
