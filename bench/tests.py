"""The tests, as crates of a tree of their own, which `rt ci` leaves out. `./try/tests` and `./try/memory` use it."""
import os
import pathlib
import shutil

from build import ROOT, below, compile, crates, link, lock, lower

# Each crate of tests, a folder of tests/, with the libraries that it uses, lowest first.
TESTS = {
    "form_tests": ["edn_reader", "intervals", "jepsen_form", "merge_order", "pairing", "tower_file"],
    "judge_tests": ["intervals", "read_tree", "register_book", "safe_regular", "zone_tree", "zones"],
    "shard_tests": ["intervals", "register_book", "shards", "tower_file"],
    "feeder_tests": ["feeders", "intervals", "jepsen_form", "logs", "pairing", "shards", "tower_file"],
    "command_tests": ["command_parts", "commands", "feeders", "intervals", "jepsen_form", "report", "shards", "tower_file"],
}


# The folder in which programs of tests are kept for others; the variable names it, or there is none.
KEPT = os.environ.get("REGAUDIT_TESTS")


def build_tests(name, room):
    """The program of a crate of tests: built in a folder, or taken as another call keeps it."""
    if not KEPT:
        return build_anew(name, room)
    folder = pathlib.Path(KEPT, name)
    folder.mkdir(parents=True, exist_ok=True)
    with lock(folder):
        if not (folder / name).exists():
            shutil.copy(build_anew(name, room), folder / "new")
            os.replace(folder / "new", folder / name)
    return folder / name


def build_anew(name, room):
    """Builds a crate of tests without a proof: what a proof would show of it, and of the libraries below it, is checked
    while it runs."""
    rows, tree = crates() | TESTS, room / "tree"
    for crate in below([name], rows):
        source = ROOT / "tests" / name if crate == name else ROOT / "crates" / crate / "src"
        shutil.copytree(source, tree / "crates" / crate / "src")
    for file in list((tree / "crates" / name).rglob("*.rattle")):
        file.rename(file.with_suffix(".rt"))
    compile(room, lower(name, rows, tree, room, tests=True))
    link(room / "program.o", room / name)
    return room / name
