"""Tests of tools/README.md: each command in it is run, and what it writes is what stands there."""
import re
import shutil
import subprocess

from tool_runs import ROOT, copy_programs, same

BLOCK = re.compile(r"(?:^    .*\n(?:\n(?=    ))?)+", re.M)


def blocks():
    """The indented blocks, without their indentation."""
    for block in BLOCK.findall((ROOT / "tools/README.md").read_text(encoding="utf-8")):
        yield re.sub(r"^    ", "", block, flags=re.M)


def make_place(folder):
    """A folder as a user has it: tools, samples, the programs, and the texts of the guide in files."""
    shutil.copytree(ROOT / "tools", folder / "tools")
    shutil.copytree(ROOT / "samples", folder / "samples")
    copy_programs(folder / "target/bin")


def test_guide(folder):
    """A block whose first line is '# NAME' alone is that file; a line '$ COMMAND' is run, and its output follows."""
    make_place(folder)
    commands, files = 0, 0
    for block in blocks():
        first, _, rest = block.partition("\n")
        if name := re.fullmatch(r"# (\S+\.(?:toml|txt|bdf))", first):
            (folder / name[1]).write_text(rest, encoding="utf-8")
            files += 1
        if "$ " not in block:
            continue
        for command, expected in re.findall(r"^\$ (.*)\n((?:(?!\$ ).*\n)*)", block, re.M):
            run = subprocess.run(["bash", "-c", command], cwd=folder, stdout=subprocess.PIPE, stderr=subprocess.STDOUT, check=False)
            said = re.sub(r"[ \t]+$", "", run.stdout.decode("utf-8"), flags=re.M)
            same(f"$ {command}", said.rstrip("\n"), expected.rstrip("\n"))
            commands += 1
    names = ("new", "show", "explain", "describe", "diff", "set", "edits", "view")
    text = (ROOT / "tools/README.md").read_text(encoding="utf-8")
    same("commands without an example", [name for name in names if f"$ tools/sheet {name} " not in text], [])
    return f"{commands} commands, {files} files"


def test_keys_of_guide(_):
    """Each key of a description and each word of a bitmap font stands in the guide."""
    from station_sheet import bitmap, description
    text = (ROOT / "tools/README.md").read_text(encoding="utf-8")
    keys = description.ITEM_KEYS | description.BITMAP_KEYS | description.BDF_KEYS | description.ATLAS_KEYS | {"width", "height", "paper"} | set(bitmap.WORDS) | {"glyph"}
    same("keys that the guide does not have", sorted(key for key in keys if not re.search(rf"\b{key}\b", text)), [])
