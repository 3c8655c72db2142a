#!/usr/bin/env python3
"""Asks of every crate what `rt ci` asks before any proof: the layout, the words of contracts, that each file is read, that each
text of an edit stands in its file once, and that each library which a path begins with is one of the crate's in crates.txt;
and that the program which README.md shows is that of its crate, and that lines of sources, specs and documents have at most
120 columns.

    tools/before_a_commit.py        at the top of the repository; prints what is wrong, and ends with status 1 if anything is

It calls the functions of the kit's `rt` themselves, and proves nothing. The gate does not run it.
"""
import importlib.machinery
import importlib.util
import os
import pathlib
import re
import shutil
import sys

PROGRAM = os.path.realpath(shutil.which("rt"))
RLIBS = pathlib.Path("/opt/rattle/rlibs")
WIDTH = 120


def load():
    """The kit's rt as a module."""
    sys.path.insert(0, os.path.dirname(PROGRAM))
    sys.argv = ["rt"]
    loader = importlib.machinery.SourceFileLoader("kit_rt", PROGRAM)
    module = importlib.util.module_from_spec(importlib.util.spec_from_loader("kit_rt", loader))
    loader.exec_module(module)
    module.rtlib.Crate = module.Crate
    return module


def libraries_not_listed(crate, crates):
    """The libraries with which a path of the crate begins, and that its line of crates.txt lacks."""
    lines = pathlib.Path("crates.txt").read_text().splitlines()
    listed = {name.strip(): set(used.split()) for name, used in (it.split(":", 1) for it in lines if ":" in it)}
    folder = pathlib.Path(crate.folder)
    name = folder.name
    known = {it.name for it in pathlib.Path("crates").iterdir()} | {it.stem for it in RLIBS.glob("*.rlib")}
    files = list((folder / "src").rglob("*.rt"))
    own = {it.stem for it in files} | {name, "std", "core", "alloc"}
    used = set()
    for file in files:
        text = re.sub(r"//[^\n]*|ghost use [^;]*;", "", file.read_text())
        imported = re.findall(r"use std::(?:([a-z_0-9]+)|\{([^}]*)\});", text)
        short = {name.strip() for one, several in imported for name in (one or several).split(",")}
        used |= set(re.findall(r"(?<![:\w])([a-z_0-9]+)::(?!<)", text)) - short
    return sorted((used & known) - own - listed.get(name, set()))


def long_lines(files):
    """The lines past the width, but for attributes, which `rt fmt` writes in one, and for words that no line holds."""
    for file in files:
        for number, line in enumerate(file.read_text().splitlines(), 1):
            is_data = max(map(len, line.split()), default=0) > WIDTH // 2
            if len(line) > WIDTH and not line.lstrip().startswith("#[") and not is_data:
                yield f"{file.name}:{number} has {len(line)} columns"


def wrong_with(kit, crate, crates):
    """What is wrong with a crate's texts, line by line."""
    lib = kit.rtlib
    found = []
    try:
        lib.stop_on_links(crate.folder)
        lib.stop_on_unread(crate.folder, crates)
        lib.stop_on_text(crate, "verdict")
        kit.stop_on_words(crate)
    except SystemExit:
        found.append("its text is refused (see above)")
    if lib.fmt(crate.folder, "--check", sys.stdout):
        found.append("run rt fmt")
    found += [f"crates.txt does not say that it uses {it}" for it in libraries_not_listed(crate, crates)]
    folder = pathlib.Path(crate.folder)
    found += long_lines(it for part in ("src", "specs") for it in sorted((folder / part).rglob("*")) if it.is_file())
    edits, others = kit.edits_of(crate)
    found += [f"{os.path.basename(it)} is no edit's name" for it in others]
    folder = f"{crate.folder}/wrong-bodies"
    if os.path.isdir(folder):
        edits += [f"{folder}/{it}" for it in sorted(os.listdir(folder)) if it.endswith(".edit")]
    for edit in edits:
        _, why = kit.read_edit(edit, crate.folder)
        if why:
            found.append(f"{os.path.basename(edit)}: {why}")
    return found


def functions_shown(text):
    """The functions that a document shows, in blocks indented by four."""
    blocks = re.findall(r"(?:^ {4}.*\n|^\n)+", text, re.M)
    blocks = [re.sub(r"^ {4}", "", it, flags=re.M).strip() for it in blocks]
    return [it for it in blocks if re.search(r"^fn ", it, re.M)]


def main():
    kit = load()
    crates = kit.rtlib.crates_below(os.getcwd())
    failed = False
    for crate in crates:
        for it in wrong_with(kit, crate, crates):
            failed = True
            print(f"{crate.name}: {it}")
    documents = [pathlib.Path("README.md"), *sorted(pathlib.Path("docs").glob("*.md")), *sorted(pathlib.Path("crates").glob("*/README.md"))]
    for it in long_lines(documents):
        failed = True
        print(it)
    program = pathlib.Path("crates/auth_store_example/src/main.rt").read_text()
    for shown in functions_shown(pathlib.Path("README.md").read_text()):
        if shown not in program:
            failed = True
            print("README.md shows a program that is not that of crates/auth_store_example")
    print(f"{len(crates)} crates asked")
    return 1 if failed else 0


if __name__ == "__main__":
    sys.exit(main())
