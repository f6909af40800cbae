#!/usr/bin/env python3
"""respell.py: brings this repository's own definitions and lemmas to snake case, once, after the kit's port.py.

Run at the top of the repository. It goes by whole names: in .antt files, in the ghost lines and clauses of .rt files, in must-fail edits,
and in the backticks of README.md and docs/*.md. Types, modules and the names of src/ keep theirs. A lemma whose name would be its definition's ends in _lem.
"""
import os
import re
import sys

NAME = re.compile(r"(?<![\w'ℕ·-])[A-Za-z_][\w'ℕ·?-]*")
# Lemmas that have the name that their definition gets.
LEMMAS = {"by_number": "by_number_lem", "by_key": "by_key_lem", "row_cut": "row_cut_lem", "last_row": "last_row_lem", "list_length": "list_length_lem"}
# Names whose parts a capital does not show; the library's `getD` is get_or.
WHOLE = {"getD-clear": "get_or-clear", "getD-zero": "get_or-zero", "deletedFromSwMI": "deleted_from_swmi"}
# A number in hexadecimal, or a type behind a name.
KEPT = re.compile(r"x[0-9A-F]+$|.*[-_][A-Z]")


def snake(name):
    """The name in snake case: bytesIn is bytes_in, bits-bytesIn bits-bytes_in."""
    if name in WHOLE:
        return WHOLE[name]
    if not name[0].islower() or KEPT.match(name):
        return name
    return re.sub(r"(?<=[a-z0-9])([A-Z])", lambda m: "_" + m.group(1).lower(), name)


def respell(text):
    text = NAME.sub(lambda m: LEMMAS.get(m.group(0), m.group(0)), text)
    return NAME.sub(lambda m: snake(m.group(0)), text)


def rattle(text):
    """A .rt file: strings and characters keep what they hold, and comments theirs."""
    parts = re.split(r"(\"(?:[^\"\\\n]|\\.)*\"|//[^\n]*)", text)
    return "".join(p if i % 2 else respell(p) for i, p in enumerate(parts))


def page(text):
    return re.sub(r"`[^`\n]*`", lambda m: respell(m.group(0)), text)


def main():
    for folder, dirs, files in os.walk("."):
        dirs[:] = [d for d in dirs if d not in (".git", "out", "target", "landings")]
        for name in files:
            path = os.path.join(folder, name)
            inside = path.startswith("./crates/")
            turn = None
            if inside and name.endswith((".antt", ".edit")):
                turn = respell
            elif inside and name.endswith(".rt"):
                turn = rattle
            elif name.endswith(".md") and (folder in (".", "./docs")):
                turn = page
            if turn:
                with open(path, encoding="utf-8") as f:
                    old = f.read()
                new = turn(old)
                if new != old:
                    with open(path, "w", encoding="utf-8") as f:
                        f.write(new)


if __name__ == "__main__":
    sys.exit(main())
