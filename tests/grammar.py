#!/usr/bin/env python3
"""Compares the productions with the page of the language. Each rule has to stand word for word above its production.

usage: tests/grammar.py

The page is the block of rules in docs/GRAMMAR.md, "The language on one page"; its last rule, the table of strengths, is
left out. The productions are in crates/rhai_grammar/specs/RulesOf*.antt: in the comment above one, a line that
begins with five blanks is a rule, and one with seven goes on with it. It prints each rule that stands nowhere, in two
places or in other words, and each that the page does not have.
"""

import pathlib
import re
import sys

ROOT = pathlib.Path(__file__).resolve().parent.parent
PAGE = ROOT / "docs/GRAMMAR.md"
PRODUCTIONS = ROOT / "crates/rhai_grammar/specs"
TABLE = "binary"


def joined(lines, begins, goes_on):
    """Yields the rules in some lines, each as its name and its words, in one line."""
    rule = None
    for line in lines:
        first, more = re.match(begins, line), re.match(goes_on, line)
        if rule and not first and more:
            rule = (rule[0], f"{rule[1]} {more[1]}".strip())
            continue
        if rule:
            yield rule
        rule = (first[1], first[2].strip()) if first else None
    if rule:
        yield rule


def rules_of_page():
    """Answers the rules of the page, by name."""
    block = PAGE.read_text(encoding="utf-8").split("```ebnf\n", 1)[1].split("```", 1)[0]
    lines = [re.sub(r"\s*//.*", "", line) for line in block.splitlines()]
    rules = dict(joined(lines, r"(\w+)\s*=\s*(.*)", r"\s+(\S.*)"))
    del rules[TABLE]
    return rules


def rules_of_productions():
    """Yields the rules above productions: the file, the name and the words of each."""
    for path in sorted(PRODUCTIONS.glob("RulesOf*.antt")):
        lines = path.read_text(encoding="utf-8").splitlines()
        for name, words in joined(lines, r"-- {5}(\w+) =\s*(.*)", r"-- {7}(\S.*)"):
            yield path.name, name, words


def main():
    page, seen, faults = rules_of_page(), {}, []
    for file, name, words in rules_of_productions():
        if name in seen:
            faults.append(f"{file}: {name} stands in {seen[name]}, too")
        elif page.get(name) != words:
            faults.append(f"{file}: {name} = {words}\n  {PAGE.name}: {page.get(name, 'there is no such rule')}")
        seen[name] = file
    faults += [f"{name} stands above no production" for name in page if name not in seen]
    for fault in faults:
        print(fault)
    print(f"{len(page) - len(faults)} passed, {len(faults)} failed")
    sys.exit(bool(faults))


main()
