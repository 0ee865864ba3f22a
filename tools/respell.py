#!/usr/bin/env python3
"""Brings this repository's own definitions, lemmas, record fields and ghost members to snake case.

    tools/respell.py [FOLDER]     run once, at the top of the repository, by default of this folder

It goes over crates/*/specs, crates/*/proofs and the contracts of crates/*/src, and over the files named .txt that hold such text.
Names that Rattle makes (goals, steps), names of other libraries, Rust's names, strings and texts stay as they are.
"""
import pathlib
import re
import sys

TOKEN = re.compile(r"[^\s(){}\[\];:,.·|\"`⌜⌝]+")
DECLARED = re.compile(r"^\s*((?:pub|abbrev|unfoldable|data|record)\s+)*([^\s(){}\[\];,.:=|λ]+)\s+:(?:\s+(?!goal\.)|$)")
GHOST = re.compile(r"^\s*ghost\s+([^\s(){}\[\];,.:=]+)\s*[:=]")
# Where the plain spelling is taken, by a function of src/ or by another definition.
OTHER = {
    "andLeft": "then_left",
    "slotTold": "told_by_slot",
    "toldAt": "told_by_place",
    "blockCount": "count_of_block",
    "blockEnd": "end_of_block",
    "blockFirst": "first_of_block",
    "blockLast": "last_of_block",
    "isBalanced": "has_balance",
    "missingIn": "missing_tenths_in",
    "withStatus": "given_status",
    "awardBy": "award_of_call",
    "getD-repeated": "get_or_repeated",
    "getD-repeated-rows": "get_or_repeated_rows",
}


def snake(name):
    if name in OTHER:
        return OTHER[name]
    name = name.replace("′", "'")
    name = re.sub(r"(?<=[a-z0-9])(?=[A-Z])", "_", name)
    return name.replace("-", "_").lower()


def texts(top):
    for path in sorted(top.glob("crates/*/**/*")):
        parts = path.relative_to(top).parts
        if "out" in parts or not path.is_file():
            continue
        if re.search(r"\.(antt|rt)(\.txt)?$", path.name):
            yield path


def own_names(top):
    names = set()
    for path in texts(top):
        antt = ".antt" in path.name
        for line in path.read_text().splitlines():
            found = DECLARED.match(line) if antt else GHOST.match(line)
            if found:
                names.add(found.group(2 if antt else 1))
    return {n for n in names if n[0].islower() and snake(n) != n}


def parts(path, text):
    """The text cut at what stays, its strings and comments."""
    stays = r'("(?:[^"\\\n]|\\.)*"|//[^\n]*)' if ".rt" in path.name else r'("(?:[^"\\\n]|\\.)*"|--[^\n]*)'
    return re.split(stays, text)


def respelled(part, table):
    if part.startswith(('"', "//", "--")):
        return part
    return TOKEN.sub(lambda m: table.get(m.group(0), m.group(0)), part)


def main():
    top = pathlib.Path(sys.argv[1] if len(sys.argv) > 1 else ".")
    table = {n: snake(n) for n in own_names(top)}
    said = {}
    for old, new in sorted(table.items()):
        said.setdefault(new, []).append(old)
    for new, olds in said.items():
        if len(olds) > 1:
            print(f"respell: {', '.join(olds)} fall together as {new}")
    used = set()
    for path in texts(top):
        for token in TOKEN.findall(path.read_text()):
            used.add(token)
    for old, new in sorted(table.items()):
        if new in used:
            print(f"respell: {new} stands already, beside {old}")
    changed = 0
    for path in texts(top):
        text = path.read_text()
        out = "".join(respelled(part, table) for part in parts(path, text))
        if out != text:
            path.write_text(out)
            changed += 1
    for old, new in sorted(table.items()):
        print(f"{old} {new}")
    print(f"respell: {len(table)} names, {changed} files")


main()
