"""Tests that every must-fail edit can be applied to its crate, in the way of 'rt must-fail' and without the prover: an edit whose text is gone
from the sources shows nothing.

An edit has a line 'file: PATH', which holds for the pairs after it, and pairs of lines 'old: TEXT' and 'new: TEXT'. Each old text stands once in
the file, as the pairs before have left it. Other lines are passed over.
"""
from tool_runs import ROOT, same

PARTS = ("src", "specs", "proofs")


def crate_of(path):
    """The crate whose mistake an edit is."""
    return ROOT / "crates" / (path.parents[1].name if path.parent.name == "must-fail" else path.parent.name)


def fault(edit, crate):
    """What keeps an edit from being applied, or None."""
    name, old, texts, pairs = "", "", {}, 0
    for line in edit.split("\n"):
        if line.startswith("file: "):
            name = line.removeprefix("file: ")
        elif line.startswith("old: "):
            old = line.removeprefix("old: ")
        elif line.startswith("new:"):
            if name.split("/")[0] not in PARTS or ".." in name.split("/") or not (crate / name).is_file() or (crate / name).is_symlink():
                return f"'{name}' is no file of the crate"
            text = texts.setdefault(name, (crate / name).read_text(encoding="utf-8"))
            if old == "" or text.count(old) != 1:
                return f"the text '{old}' is {text.count(old) if old else 0} times in {name}"
            texts[name] = text.replace(old, line.removeprefix("new:").removeprefix(" "))
            old, pairs = "", pairs + 1
    return None if pairs else "it has no pair of 'old:' and 'new:'"


def test_edits_can_be_applied(_):
    edits = sorted([*ROOT.glob("crates/*/must-fail/*.edit"), *ROOT.glob("tests/edits/*/*.edit")])
    found = {path.relative_to(ROOT): fault(path.read_text(encoding="utf-8"), crate_of(path)) for path in edits}
    same("edits that cannot be applied", [f"{path}: {why}" for path, why in found.items() if why], [])
    same("edits", len(edits) > 100, True)
    return f"{len(edits)} edits"


def test_faults_of_edits(folder):
    """An edit, and words of what keeps it from being applied."""
    (folder / "src").mkdir()
    (folder / "specs").mkdir()
    (folder / "src/lib.rt").write_text("one\ntwo\ntwo\n", encoding="utf-8")
    (folder / "specs/A.antt").write_text("two\n", encoding="utf-8")
    edits = [
        ("file: src/lib.rt\nold: one\nnew: three", None), ("# a mistake\nfile: src/lib.rt\nold: one\nnew:", None), ("old: one\nnew: three", "'' is no file"),
        ("file: src/lib.rt\nold: four\nnew: three", "'four' is 0 times"), ("file: src/lib.rt\nold: two\nnew: three", "'two' is 2 times"),
        ("file: src/lib.rt\nold: one\nnew: four\nold: four\nnew: five", None), ("file: src/lib.rt\nold: one\nnew: two\nold: one\nnew: five", "'one' is 0 times"),
        ("file: src/lib.rt\nold: one\nnew: four\nnew: five", "'' is 0 times"), ("file: src/lib.rt\nold: one", "no pair"), ("", "no pair"),
        ("file: src/lib.rt\nold: one\nnew: two\nfile: specs/A.antt\nold: two\nnew: one", None), ("file: src/no.rt\nold: one\nnew: two", "'src/no.rt' is no file"),
        ("file: src/../src/lib.rt\nold: one\nnew: two", "is no file"), ("file: /src/lib.rt\nold: one\nnew: two", "is no file"),
        ("file: must-fail/a.edit\nold: one\nnew: two", "is no file"),
    ]
    for edit, words in edits:
        found = fault(edit, folder)
        same(f"{edit!r}: {found}", found is None if words is None else words in (found or ""), True)
    return f"{len(edits)} edits"
