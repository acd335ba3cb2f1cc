"""The edits of sources in `crates/NAME/must-fail` and `wrong-bodies/NAME`: wrong bodies, each with a name of its own.

An edit has a line `file: PATH` in the folder of its crate, and then pairs of lines, `old: TEXT`, which is in that file
once, and `new: TEXT`.
"""
import pathlib

ROOT = pathlib.Path(__file__).resolve().parents[1]


class Unfit(Exception):
    """Why an edit cannot be applied."""


def all_edits(crate):
    """All edits of a crate."""
    folders = [ROOT / "crates" / crate / "must-fail", ROOT / "wrong-bodies" / crate]
    return sorted(edit for folder in folders for edit in folder.glob("*.edit"))


def edited(edit, crate):
    """The files that an edit changes, by their paths in the repository, each with its text then."""
    file, old, texts = None, "", {}
    for line in edit.read_text().split("\n"):
        if line.startswith("file: "):
            file = f"crates/{crate}/{line.removeprefix('file: ').strip()}"
            if not (ROOT / file).is_file():
                raise Unfit(f"there is no file {file}")
        elif line.startswith("old: "):
            old = line.removeprefix("old: ")
        elif line.startswith("new:") and file and old:
            text = texts.get(file) or (ROOT / file).read_text()
            if text.count(old) != 1:
                raise Unfit(f"an old text is in {file} {text.count(old)} times, and not once")
            texts[file], old = text.replace(old, line.removeprefix("new:").removeprefix(" ")), ""
    if not texts:
        raise Unfit("it changes no text")
    return texts
