#!/usr/bin/env python3
"""Brings the repository's own definitions and lemmas to the spelling of today's library.

usage: python3 tools/respell.py          in the repository, once, behind the kit's port.py

A definition, lemma, field or constructor is in snake case (`converse-of` and `converseOf` become `converse_of`), a type or a
statement in camel case (`One-answer` becomes `OneAnswer`).  Functions of src/ and their parameters are Rust names already.  A
name that the library has or the check makes (goals, steps and branches of a function's proof) is left alone: only names that this
repository defines are turned, wherever they stand in crates/*/{specs,proofs}, in the clauses of src/ and in must-fail edits.
It stops, and writes nothing, where two names would fall together.
"""

import os
import re

# A name of antt, one part of a path or of a projection.
NAME = re.compile(r"[^\W\d][\w'\-·]*", re.UNICODE)
# What begins a definition: its name and ` : ` or ` (`.
DEFINED = re.compile(
    r"^(\s*)(?:(?:abbrev|unfoldable|pub|inductive)\s+)*(?:(?:record|data)\s+)?(?:pub\s+)?([^\W\d][\w'\-·]*)\s*(?::\s|\(|\{)", re.UNICODE
)
# Names whose usual spelling a function of src/ has already.
CHOSEN = {
    "hexDigit": "hex_digit_of",
    "hexByte": "hex_byte_of",
    "sheetLine": "sheet_line_of",
    "entryLine": "entry_line_of",
    "entryLines": "entry_lines_of",
    "linkLine": "link_line_of",
    "givenLetters": "given_letters_of",
}
# Fields of a record of specs/ that stand for those of a struct of src/: the two have one name, in two types.
TOGETHER = {"instants-less", "meets-during", "one-sided", "overlaps-twice", "part-whole"}


def files(root):
    for folder, dirs, names in os.walk(os.path.join(root, "crates")):
        dirs[:] = sorted(d for d in dirs if d != "out")
        for name in sorted(names):
            if name.endswith((".antt", ".rt", ".edit")):
                yield os.path.join(folder, name)


def read(path):
    with open(path, encoding="utf-8") as f:
        return f.read()


def made_by_the_check(path):
    """Whether a file answers goals, whose names the check makes."""
    return os.path.basename(path) in ("Answers.antt", "Invariants.antt", "Proof.antt")


def defined(root):
    """The names that the repository's specs and lemmas define, at any depth."""
    found = set()
    for path in files(root):
        if not path.endswith(".antt"):
            continue
        goals = made_by_the_check(path)
        for line in read(path).splitlines():
            m = DEFINED.match(line)
            if not m or (goals and (line.startswith("pub ") or line.startswith("abbrev pub "))):
                continue
            if m.group(2) not in ("use", "mod", "module", "let", "where", "in", "elim", "rw", "record", "data"):
                found.add(m.group(2))
    return found


def respelled(name):
    if name[0].isupper():
        return "".join(part[0].upper() + part[1:] for part in name.split("-") if part)
    return re.sub(r"(?<=[a-z0-9])([A-Z])", lambda m: "_" + m.group(1).lower(), name).replace("-", "_")


def imported(root):
    """The names that the repository takes from libraries that are not its own."""
    own = set(os.listdir(os.path.join(root, "crates")))
    found = set()
    for path in files(root):
        for m in re.finditer(r"^(?:ghost )?use ([^{;\n]*?)\.\{([^}]*)\}", read(path), re.MULTILINE):
            words = m.group(1).split(".")
            if words[0] != "Rattle" or words[1] not in own:
                found.update(NAME.findall(m.group(2)))
    return found


def made_names(root):
    """The names of goals, steps and branches that the check makes."""
    found = set()
    for path in files(root):
        text = read(path)
        found.update(re.findall(r"goal\.([^\W\d][\w'\-·]*)", text))
        for m in re.finditer(r"\.(?:Goals|Given)\.\{([^}]*)\}", text):
            found.update(NAME.findall(m.group(1)))
    return found


def all_names(root):
    found = set()
    for path in files(root):
        found.update(NAME.findall(read(path)))
    return found


def main():
    root = os.getcwd()
    turned = {n: CHOSEN.get(n) or respelled(n) for n in defined(root)}
    turned = {n: new for n, new in turned.items() if n != new}
    for n in sorted(set(turned) & (imported(root) | made_names(root))):
        print(f"kept, since the library or the check has it: {n}")
        del turned[n]
    there = all_names(root)
    news = list(turned.values())
    together = sorted(n for n, new in turned.items() if n not in TOGETHER and (new in there or news.count(new) > 1))
    for n in together:
        print(f"falls together: {n} -> {turned[n]}")
    if together:
        return 1
    for path in files(root):
        old = read(path)
        new = NAME.sub(lambda m: turned.get(m.group(0), m.group(0)), old)
        if new != old:
            with open(path, "w", encoding="utf-8") as f:
                f.write(new)
    print(f"{len(turned)} names respelled")
    return 0


if __name__ == "__main__":
    raise SystemExit(main())
