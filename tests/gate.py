"""Tests of .ci/run, tests/oracle.sh and tests/bdf.sh in a clone that has no files of embedded-graphics, no real fonts and no FreeType: what is counted,
skipped and said. A stand-in for rt proves nothing and takes no time. And of tests/paper.sh in a tree that was unpacked, and is no clone."""
import os
import re
import shutil
import subprocess

from tool_runs import ROOT, same

KIT = re.search(r"^    (rattle-kit.*)$", (ROOT / "docs/KIT.md").read_text(encoding="utf-8"), re.M)[1]


def script(path, text):
    path.parent.mkdir(parents=True, exist_ok=True)
    path.write_text(f"#!/usr/bin/env bash\n{text}\n", encoding="utf-8")
    path.chmod(0o755)


def make_clone(folder, kit=KIT, host="echo '2 passed, 0 failed'", edits=""):
    """A clone below the folder, and a folder of programs: rt, and a rustc that is never run."""
    clone = folder / "clone"
    for name in (".ci/run", "docs/KIT.md", "tests/oracle.sh", "oracle/crates.sh", "oracle/hashes.sha256"):
        (clone / name).parent.mkdir(parents=True, exist_ok=True)
        shutil.copy(ROOT / name, clone / name)
    script(clone / "tests/host.sh", host)
    script(clone / "tests/paper.sh", "echo '7 passed, 0 failed'")
    script(clone / "tests/bdf.sh", "echo '5 passed, 0 failed'")
    script(clone / "tools/build.sh", "exit 0")
    script(folder / "bin/rt", f"case $1 in version) echo '{kit}' ;; ci) echo '{edits}'; echo '3 passed, 0 failed' ;; esac")
    script(folder / "bin/rustc", "exit 1")
    return clone


def run(folder, *words, **variables):
    """The exit status and the lines of a script of the clone."""
    environment = {key: value for key, value in os.environ.items() if key != "EMBEDDED_GRAPHICS"}
    environment |= {"PATH": f"{folder / 'bin'}:{environment['PATH']}", **variables}
    done = subprocess.run(words, cwd=folder / "clone", env=environment, capture_output=True, check=False)
    same("errors", done.stderr, b"")
    return done.returncode, done.stdout.decode("utf-8").splitlines()


def test_gate_without_crate(folder):
    make_clone(folder)
    status, lines = run(folder, ".ci/run")
    same("status and last line", (status, lines[-1]), (0, "17 passed, 0 failed"))
    same("the line before", (lines[-2].startswith("skipped: "), "EMBEDDED_GRAPHICS=FOLDER tests/oracle.sh" in lines[-2]), (True, True))
    same("notices of the kit", [line for line in lines if line.startswith("notice: ")], [])


def test_gate_with_another_kit(folder):
    make_clone(folder, kit="rattle-kit-9 logic 0")
    status, lines = run(folder, ".ci/run")
    same("status and last line", (status, lines[-1]), (0, "17 passed, 0 failed"))
    notice = f"notice: this is the kit 'rattle-kit-9 logic 0', and docs/KIT.md records '{KIT}'"
    same("notices of the kit", [line for line in lines if line.startswith("notice: ")], [notice])


def test_gate_counts(folder):
    clone = make_clone(folder, host="echo '2 passed, 1 failed'; exit 1")
    status, lines = run(folder, ".ci/run")
    same("status and last line", (status, lines[-1]), (1, "17 passed, 1 failed"))
    script(clone / "tests/host.sh", "exit 3")
    status, lines = run(folder, ".ci/run")
    same("a part without a count", (status, lines[-1]), (1, "15 passed, 1 failed"))


def test_gate_with_bad_edit(folder):
    """An edit that rt cannot try is a failure here, and no failure to rt."""
    make_clone(folder, edits="rt: ok: 2 crates; must-fail edits: 4 refused")
    same("none bad", run(folder, ".ci/run")[0], 0)
    script(folder / "bin/rt", f"case $1 in version) echo '{KIT}' ;; ci) echo 'rt: ok: 2 crates; must-fail edits: 3 refused, 1 bad'; echo '3 passed, 0 failed' ;; esac")
    status, lines = run(folder, ".ci/run")
    same("status and last line", (status, lines[-1]), (1, "3 passed, 1 failed"))


def test_oracle_without_crate(folder):
    """Without the files one line; with a folder that is named and has them not, a failure."""
    clone = make_clone(folder)
    status, lines = run(folder, "tests/oracle.sh")
    same("status and lines", (status, len(lines), lines[0].startswith("skipped: "), "../shared/docs/src" in lines[0]), (0, 1, True, True))
    status, lines = run(folder, "tests/oracle.sh", EMBEDDED_GRAPHICS="elsewhere")
    same("a named folder", (status, lines[-1], "elsewhere, which has no src/" in lines[0]), (1, "0 passed, 1 failed", True))
    for line in (ROOT / "oracle/hashes.sha256").read_text(encoding="ascii").splitlines()[1:]:
        path = clone / "crate" / line.split()[1]
        path.parent.mkdir(parents=True, exist_ok=True)
        path.touch()
    status, lines = run(folder, "tests/oracle.sh", EMBEDDED_GRAPHICS="crate")
    same("a folder with a file less", (status, lines[0].endswith("which has no src/draw_target/mod.rs")), (1, True))


def test_bdf_without_fonts(folder):
    """Without a C compiler, FreeType and real fonts three lines, and the other tests are made; a comparison that stops is a failure."""
    clone = make_clone(folder)
    for name in ("cc", "apt-get", "sudo"):
        script(folder / "bin" / name, "exit 1")
    shutil.copy(ROOT / "tests/bdf.sh", clone / "tests/bdf.sh")
    status, lines = run(folder, "tests/bdf.sh")
    same("without read_bdf", (status, lines[-1]), (1, "0 passed, 1 failed"))
    script(clone / "target/bin/read_bdf", "exit 1")
    (clone / "tests/bdf_compare.py").write_text("import sys\nprint('ok', *sys.argv[2:])\n", encoding="ascii")
    status, lines = run(folder, "tests/bdf.sh")
    same("status, and lines that are skipped", (status, [line.startswith("skipped: ") for line in lines]), (0, [True, True, True, False, False]))
    same("what is compared", lines[3:], ["ok - - target/bdf", "1 passed, 0 failed"])
    (folder / "fonts").mkdir()
    (folder / "fonts/a.bdf").touch()
    status, lines = run(folder, "tests/bdf.sh", folder / "fonts")
    same("with fonts", (status, lines[2:]), (0, [f"ok - - target/bdf {folder / 'fonts'}/a.bdf", "1 passed, 0 failed"]))
    (clone / "tests/bdf_compare.py").write_text("print('ok 1')\nprint('FAILED 2')\nraise SystemExit(1)\n", encoding="ascii")
    same("a test that failed", run(folder, "tests/bdf.sh")[1][-1], "1 passed, 1 failed")
    (clone / "tests/bdf_compare.py").write_text("print('ok 1')\nraise ValueError\n", encoding="ascii")
    same("a comparison that stopped", run(folder, "tests/bdf.sh")[1][-1], "1 passed, 1 failed")


def test_paper_without_git(folder):
    """In a tree that git knows nothing of, and where there is no git: all files are looked at."""
    shutil.copytree(ROOT, folder / "tree", ignore=shutil.ignore_patterns(".*", "target", "out", "__pycache__"))
    for name in ("bash", "dirname", "python3"):
        (folder / "bin").mkdir(exist_ok=True)
        (folder / "bin" / name).symlink_to(shutil.which(name))
    status, lines = paper(folder, GIT_CEILING_DIRECTORIES=str(folder))
    same("status, last line and failures", (status, lines[-1].endswith(" passed, 0 failed"), [line for line in lines if line.startswith("FAILED")]), (0, True, []))
    (folder / "tree/docs/more.md").write_text("docs/SHEET.md" + ", section Nowhere\n", encoding="utf-8")
    status, lines = paper(folder, PATH=str(folder / "bin"))
    found = any("docs/more.md: section Nowhere" in line for line in lines)
    same("status, last line and the file that names no section", (status, lines[-1].endswith(" passed, 1 failed"), found), (1, True, True))


def paper(folder, **variables):
    """The exit status and the lines of tests/paper.sh in the tree."""
    done = subprocess.run([folder / "tree/tests/paper.sh", "references"], env={**os.environ, **variables}, capture_output=True, check=False)
    same("errors", done.stderr, b"")
    return done.returncode, done.stdout.decode("utf-8").splitlines()
