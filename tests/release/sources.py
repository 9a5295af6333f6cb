#!/usr/bin/env python3
"""Whether library/build could skip where a source changed: in a copy of all that the library is built from, each file is
changed, then removed, and one is added beside it; each time library/sources has to print other lines. A change of what
isn't built from, an edit that must fail or a file of out/, leaves them.

Usage: tests/release/sources.py
"""

import contextlib
import importlib.machinery
import importlib.util
import io
import shutil
import sys
import tempfile
from pathlib import Path

TOP = Path(__file__).resolve().parents[2]
sys.dont_write_bytecode = True


def loaded():
    """library/sources as a module; it asks the kit and the compiler nothing."""
    loader = importlib.machinery.SourceFileLoader("sources", str(TOP / "library/sources"))
    sources = importlib.util.module_from_spec(importlib.util.spec_from_loader("sources", loader))
    loader.exec_module(sources)
    sources.said = lambda *command: " ".join(command)
    return sources


def lines_of(sources):
    said = io.StringIO()
    with contextlib.redirect_stdout(said):
        sources.main([])
    return said.getvalue()


def copied(folder, crates):
    """Copies what the library is built from, and gives its files."""
    leave_out = shutil.ignore_patterns("out")
    for it in [*(f"crates/{name}" for name in crates), "library"]:
        shutil.copytree(TOP / it, folder / it, ignore=leave_out)
    for it in ("VERSION", "crates.txt"):
        shutil.copy(TOP / it, folder / it)
    kept = {"build", "link", "after-ci", "sources", "exports"}
    for path in (folder / "library").iterdir():
        if path.suffix not in (".c", ".h") and path.name not in kept:
            path.unlink()
    return [path for path in folder.rglob("*") if path.is_file() and path.name != "crates.txt"]


def wrong_of(sources, path, before):
    """What is wrong where a file is changed, removed, and has one more beside it."""
    content, wrong, more = path.read_bytes(), [], path.with_name(f"more{path.suffix}")
    counts = "must-fail" not in path.parts
    path.write_bytes(content + b"\n")
    wrong += [f"{path}: changed"] * ((lines_of(sources) != before) != counts)
    if path.name != "VERSION":
        path.unlink()
        wrong += [f"{path}: removed"] * ((lines_of(sources) != before) != counts)
    path.write_bytes(content)
    if path.parent.name != "library" and path.name != "VERSION" or path.suffix in (".c", ".h"):
        more.write_bytes(b"")
        wrong += [f"{path}: one beside it"] * ((lines_of(sources) != before) != counts)
        more.unlink()
    return wrong


def main():
    sources, wrong = loaded(), []
    crates = sources.below("chi_library", sources.lines_of_crates(), [])
    with tempfile.TemporaryDirectory(prefix="chihome-") as name:
        sources.TOP = Path(name)
        files = copied(sources.TOP, crates)
        before, each = lines_of(sources), {}
        for path in files:
            # (of a crate's folder a few stand for all: each sort of file in each of its folders)
            own = path.name if path.parent.name == "library" else ""
            each.setdefault((path.parent.relative_to(name).parts[:3], path.suffix, own), path)
        for path in each.values():
            wrong += wrong_of(sources, path, before)
        if lines_of(sources) != before:
            wrong.append("the files as they were")
        lines = (sources.TOP / "crates.txt").read_text()
        (sources.TOP / "crates.txt").write_text(lines.replace("chi_node:", "chi_node: memchr", 1))
        if lines_of(sources) == before:
            wrong.append("a line of crates.txt")
    print(*wrong, f"{len(each)} files of {len(files)} were changed", sep="\n")
    return 1 if wrong else 0


if __name__ == "__main__":
    sys.exit(main())
