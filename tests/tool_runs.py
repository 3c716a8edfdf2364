"""What the tests of tools/sheet share: a run of the tool or of a program, a comparison, and the run of all tests of a module."""
import collections
import contextlib
import io
import pathlib
import shutil
import subprocess
import sys
import tempfile

sys.dont_write_bytecode = True
ROOT = pathlib.Path(__file__).resolve().parents[1]
sys.path[:0] = [str(ROOT / "tools")]

from station_sheet import commands, programs  # noqa: E402

SAMPLES = sorted((ROOT / "samples").glob("*.toml"))

Run = collections.namedtuple("Run", "status out err")


def sheet_program(*words, given=b"", tool=ROOT / "tools" / "sheet"):
    """One run of tools/sheet as a program of its own; standard output as bytes."""
    run = subprocess.run([sys.executable, str(tool), *map(str, words)], input=given, capture_output=True, check=False)
    return Run(run.returncode, run.stdout, run.stderr.decode("utf-8"))


def sheet_tool(*words):
    """One run of tools/sheet in this process, which is faster."""
    out, err = io.TextIOWrapper(io.BytesIO(), encoding="utf-8"), io.StringIO()
    with contextlib.redirect_stdout(out), contextlib.redirect_stderr(err):
        try:
            status = commands.main([str(word) for word in words])
        except SystemExit as stop:
            status = stop.code
    out.flush()
    return Run(status, out.buffer.getvalue().decode("utf-8"), err.getvalue())


def said_by(name, given):
    """What a program writes to standard output and to standard error."""
    run = subprocess.run([ROOT / "target/bin" / name], input=given, capture_output=True, check=False)
    return run.stdout, run.stderr.decode("utf-8")


def said_into_full(name, path):
    """What a program writes to standard error if standard output takes nothing."""
    with open(path, "rb") as given, open("/dev/full", "wb") as full:
        return subprocess.run([ROOT / "target/bin" / name], stdin=given, stdout=full, stderr=subprocess.PIPE, check=False).stderr.decode("utf-8")


def copy_programs(folder):
    """Copies station_page, read_bdf, station_edits and station_items; where the last is not built, the program of tests/host/items.c, which measures as it does."""
    folder.mkdir(parents=True, exist_ok=True)
    built = ROOT / "target/bin/station_items"
    for name in ("station_page", "read_bdf", "station_edits"):
        shutil.copy(ROOT / "target/bin" / name, folder / name)
    shutil.copy(built if built.is_file() else sys.argv[2], folder / "station_items")


@contextlib.contextmanager
def programs_of(folder):
    """Has the tool take its programs from a folder."""
    there, programs.FOLDER = programs.FOLDER, folder
    try:
        yield
    finally:
        programs.FOLDER = there


def same(what, got, expected):
    if got != expected:
        raise AssertionError(f"{what}: {got!r}, and {expected!r} is expected")


def expect_error(run, status, words):
    """That a run wrote nothing but one line on standard error, with these words."""
    lines = run.err.split("\n")
    same("standard output", len(run.out), 0)
    if run.status != status or len(lines) != 2 or lines[1] or not lines[0].startswith("sheet: ") or words not in lines[0]:
        raise AssertionError(f"status {run.status}, {run.err!r}; status {status} and one line with {words!r} are expected")


def run_tests(module):
    """Runs each function test_NAME of a module on a folder of its own; gives the number of those that failed."""
    failed = 0
    for name, test in [(name, value) for name, value in vars(module).items() if name.startswith("test_")]:
        with tempfile.TemporaryDirectory() as folder:
            try:
                said = test(pathlib.Path(folder))
                print(f"ok {name[5:].replace('_', ' ')}" + (f" ({said})" if said else ""), flush=True)
            except Exception as error:  # a test that stops in any way has failed
                failed += 1
                why = " ".join(str(error).split()) or type(error).__name__
                print(f"FAILED {name[5:].replace('_', ' ')}: {why}", flush=True)
    return failed
