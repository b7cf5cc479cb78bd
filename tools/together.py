#!/usr/bin/env python3
"""Lists what stands together in three or more functions of crates/*/src: names of parameters, and clauses or parts of them.

Usage, at the top of a checkout: python3 tools/together.py
"""
import collections
import glob
import itertools
import re

FEW = 3
FUNCTION = re.compile(r"\bfn (\w+)(?:<[^>]*(?:<[^>]*>)?[^>]*>)?\(([^)]*(?:\([^)]*\)[^)]*)*)\)")
CLAUSE = re.compile(r"(requires|ensures)(?: \w+)? \{((?:[^{}]|\{[^{}]*\})*)\}")


def parameters(text):
    for name, listed in FUNCTION.findall(text):
        names = {part.split(":")[0].replace("mut", "").replace("&", "").strip() for part in listed.split(",") if part.strip()}
        yield name, names - {"self"}


def clauses(text):
    for kind, body in CLAUSE.findall(text):
        for part in " ".join(body.split()).split(" × "):
            yield kind, part.strip("() ")


def main():
    groups, facts = collections.defaultdict(list), collections.Counter()
    for path in sorted(glob.glob("crates/*/src/*.rt")):
        text = open(path, encoding="utf-8").read()
        crate = path.split("/")[1]
        for name, names in parameters(text):
            for size in (2, 3, 4):
                for group in itertools.combinations(sorted(names), size):
                    groups[group].append(f"{crate}/{name}")
        facts.update(clauses(text))
    for group, places in sorted(groups.items(), key=lambda item: (-len(item[0]), -len(item[1]))):
        if len(places) >= FEW:
            print(len(places), ", ".join(group), "in", ", ".join(places))
    for (kind, part), count in facts.most_common():
        if count >= FEW:
            print(count, kind, part)


if __name__ == "__main__":
    main()
