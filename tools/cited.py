#!/usr/bin/env python3
"""Counts the definitions that a reader has to believe: those that contracts of public calls rest on.

usage: tools/cited.py [--names] [CRATE FUNCTION ..]

For each file of specs/ it prints how many lines its definitions have that the contracts of these functions cite,
directly or through other definitions; the last line has the sum. Counted are a definition and the comment above it, not
examples, imports and empty lines. Definitions of the kit and types of the code are not followed. With --names it also
prints which definitions these are. Without a CRATE it is rhai_parser, with its five entry points.
"""

import argparse
import functools
import pathlib
import re

ROOT = pathlib.Path(__file__).resolve().parent.parent
ENTRY_POINTS = ("parse", "parse_with", "parse_global_level", "parse_global_expr", "parse_global_expr_with")
USE = re.compile(r"^(?:unfoldable )?(?:pub |ghost )?use Rattle\.(\w+)\.specs\.([\w.]+?)(?:\.\{([^}]*)\}| as (\w+))?;?$")
HEAD = re.compile(r"^(?:(?:abbrev|pub|unfoldable|opaque|data|record) )*([^\s:(){}]+)\s")
WORD = re.compile(r"[^\s(){}\[\],;:.×→λ]+(?:\.[^\s(){}\[\],;:.×→λ]+)*")
FUNCTION = re.compile(r"\bfn (\w+)")


def path_of(crate, module):
    return ROOT / "crates" / crate / "specs" / (module.replace(".", "/") + ".antt")


def names_in(text, module):
    """The names that are brought in from a module, each with its name there."""
    for word in filter(None, (it.strip() for it in text.split(","))):
        name, _, other = word.partition(" as ")
        for part in {other or name, *(other or name).split("◌")} - {""}:  # (an operator is named by its symbols too)
            yield part, (*module, name)


def imports(lines):
    """What names stand for here: (crate, module, name), or (crate, module, nothing) for a module."""
    found = {}
    for line in lines:
        use = USE.match(line)
        if use and path_of(use[1], use[2]).is_file():
            module = (use[1], use[2])
            found.update([(use[4], (*module, None))] if use[4] else names_in(use[3] or "", module))
    return found


def flat(lines):
    """These lines without the indentation of what stands in a module or in a mutual block."""
    depth = 0
    for line in lines:
        if line and not line[0].isspace():
            depth = 0
        line = line[depth:] if not line[:depth].strip() else line
        if re.match(r"module _|mutual$", line):
            depth += 2
        else:
            yield line


def blocks(lines):
    """The lines of a file of specs/, in groups that each begin at the margin, with the comments before."""
    found, comment = [], []
    for line in flat(lines):
        if line.startswith("--"):
            comment.append(line)
        elif line and not line[0].isspace() and line[0] not in ")}":
            found.append([*comment, line])
            comment = []
        elif line and found:
            found[-1] += [*comment, line]
            comment = []
        else:
            comment = []
    return found


class Module:
    """A file of specs/: what its names stand for, and the lines of each of its definitions."""

    def __init__(self, path):
        self.lines = path.read_text(encoding="utf-8").split("\n") if path.is_file() else []
        self.imports, self.definitions, self.of = imports(self.lines), {}, {}
        for block in blocks(self.lines):
            self.add(block)

    def add(self, block):
        """Adds a group of lines to the definition that it is of."""
        code = next((line for line in block if not line.startswith("--")), "")
        head = HEAD.match(code + " ")
        if not head or re.match(r"(unfoldable )?(pub )?use |example|unfolding|mutual|syntax|mod |pub mod", code):
            return
        name = head[1]
        self.definitions.setdefault(name, []).extend(block)
        self.of.update(dict.fromkeys({name, *name.split("◌")} - {""}, name))
        for line in block:
            part = re.match(r"^ +(?:pub )?([^\s:(){}]+) :", line)
            if part and re.match(r"(pub )?(unfoldable )?(data|record) ", code):
                self.of.setdefault(part[1], name)


@functools.cache
def module(crate, name):
    return Module(path_of(crate, name))


def resolved(crate, name, word):
    """The definition that a word means in a module: crate, module and name, or nothing."""
    here = module(crate, name)
    if word in here.of:
        return crate, name, here.of[word]
    first, _, rest = word.partition(".")
    if first in here.imports:
        other, file, inner = here.imports[first]
        return resolved(other, file, inner or rest) if inner or rest else None
    return None


def cited(found, left):
    """Adds to `found` all definitions that those in `left` cite."""
    while left:
        item = left.pop()
        if item is None or item in found:
            continue
        crate, name, own = item
        text = module(crate, name).definitions[own]
        found[item] = [line for line in text if line]
        words = WORD.findall("\n".join(line for line in text if not line.lstrip().startswith("--")))
        left += [resolved(crate, name, word) for word in words]


def contract(lines, at):
    """The contract of the function in this line: what stands between its head and its body."""
    end = next(n for n in range(at, len(lines)) if lines[n].strip() == "{")
    return "\n".join(lines[at + 1 : end])


def of_contracts(crate, functions):
    """The definitions that the contracts of these functions name."""
    for path in sorted((ROOT / "crates" / crate / "src").rglob("*.rt")):
        lines = path.read_text(encoding="utf-8").split("\n")
        names = imports(lines)
        for at, line in enumerate(lines):
            head = FUNCTION.search(line)
            if head and head[1] in functions and line.strip().startswith("pub fn"):
                for word in WORD.findall(contract(lines, at)):
                    other, file, inner = names.get(word.split(".")[0], (None, None, None))
                    yield resolved(other, file, inner or word.partition(".")[2]) if other else None


def main():
    parser = argparse.ArgumentParser(usage=__doc__.split("usage: ")[1].split("\n")[0])
    parser.add_argument("--names", action="store_true")
    parser.add_argument("crate", nargs="?", default="rhai_parser")
    parser.add_argument("functions", nargs="*", default=ENTRY_POINTS)
    words, found = parser.parse_args(), {}
    cited(found, list(of_contracts(words.crate, words.functions)))
    files = {}
    for (crate, name, own), lines in found.items():
        files.setdefault(f"{crate}/specs/{name.replace('.', '/')}", []).append((own, len(lines)))
    for file, items in sorted(files.items(), key=lambda it: -sum(count for _, count in it[1])):
        print(f"{sum(count for _, count in items):5}  {file}")
        if words.names:
            print("\n".join(f"{'':9}{count:4}  {name}" for name, count in sorted(items, key=lambda it: -it[1])))
    print(f"{sum(map(len, found.values()))} lines in {len(found)} definitions")


main()
