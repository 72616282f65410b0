#!/usr/bin/env python3
"""Writes docs/MAP.md, the map of files, or finds files by words.

usage: tools/map.py [--check | WORD ..]

The first sentence of each file's head comment says what the file holds. The map has the definitions of the language,
with their sentences; a family of definitions has one line.

With words it writes nothing, and prints each file, with its sentence, that has all of these words in its path or in
its sentence, in any case: the files of the crates, the gate and the files of tests/. Lists of modules (Lib.antt) and
the folders below proofs/ are left out.

With --check it writes nothing, and prints the lines that differ if the document is not what it would write. The exit
status is then 1. It is also 1 if a file has no head comment.
"""

import ast
import difflib
import fnmatch
import itertools
import pathlib
import re
import sys
import textwrap

ROOT = pathlib.Path(__file__).resolve().parent.parent
DOCUMENT = ROOT / "docs/MAP.md"
HEAD = """\
# Map of files

Every file begins with a comment that says what it holds. `tools/map.py WORD ..` prints the files that have these words
in their path or in that comment: `tools/map.py slot` finds what has to do with slots, `tools/map.py rhai_base/src` the
code of a crate. [ARCHITECTURE.md](ARCHITECTURE.md) has the crates, and says where to put what.

Here are only the definitions of the language, in `crates/rhai_grammar/specs`. `tools/map.py` writes this list from the
comments of the files. Change those, not this file."""
COLUMNS = 120

# The folder of the definitions of the language.
LANGUAGE = ROOT / "crates/rhai_grammar/specs"

# Families of definitions: how their names begin or end, and what they hold.
FAMILIES = {"RulesOf*": "Productions by their kind.", "*Laws": "Laws."}

# How a line of a head comment begins, by how the file's name ends; elsewhere by `#`. A README has one after its title.
MARKS = {".rt": "//!", ".antt": "--", ".md": ""}


def head_comment(path):
    """Answers the text of a file's head comment, in one line. It is empty if there is none."""
    text = path.read_text(encoding="utf-8")
    if path.suffix == ".py":
        return " ".join((ast.get_docstring(ast.parse(text)) or "").split())
    mark = MARKS.get(path.suffix, "#")
    words = []
    for line in re.sub(r"\A(#!.*\n|# .*\n\n)", "", text).splitlines():
        if not line or not line.startswith(mark):
            break
        words += line.removeprefix(mark).split()
    return " ".join(words)


def first_sentence(path, faults):
    """Answers the first sentence of a file's head comment, with its full stop. Notes it if there is none."""
    found = re.match(r".*?[.](?= |$)", head_comment(path))
    if found:
        return found.group()
    faults.append(f"{path.relative_to(ROOT)}: no sentence in a head comment")
    return ""


def wrapped(text, columns):
    """Answers the lines of a text, of which there is at least one."""
    return textwrap.wrap(text, columns, break_on_hyphens=False) or [""]


def row(path):
    """Answers how the map names a file of definitions, and what it says of it: those of its family, or its own."""
    family = next((it for it in FAMILIES if fnmatch.fnmatch(path.stem, it)), None)
    return (family, FAMILIES[family]) if family else (path.stem, first_sentence(path, []))


def table(paths):
    """Answers a block of lines: each file or family by its name, with what it holds."""
    rows = dict(row(path) for path in paths)
    width = max(len(name) for name in rows) + 2
    lines = []
    for name, sentence in rows.items():
        first, *others = wrapped(sentence, COLUMNS - width)
        lines += [(name.ljust(width) + first).rstrip(), *(" " * width + more for more in others)]
    return ["", "```", *lines, "```"]


def by_module(path):
    """Answers what a file is sorted by, so that a module comes directly before those inside it."""
    return path.with_suffix("").parts


def terms_of(folder):
    """Answers the files of specs/ or proofs/ that the map has."""
    return [it for it in sorted(folder.glob("*.antt")) if it.name != "Lib.antt"]


def files_of(crate):
    """Answers the root file of a crate, then its other code, its definitions, and its proofs."""
    sources = sorted((crate / "src").rglob("*.rt"), key=by_module)
    root = next(it for it in sources if it in (crate / "src/lib.rt", crate / "src/main.rt"))
    sources.remove(root)
    return root, sources, terms_of(crate / "specs"), terms_of(crate / "proofs")


def files_of_tests():
    """Answers the gate and the files of the tests. Folders there are told by their README."""
    tests = ROOT / "tests"
    return [ROOT / ".ci/run", *sorted(it for it in tests.iterdir() if it.is_file()), *sorted(tests.glob("*/README.md"))]


def crates():
    """Answers the names of the crates, lowest first."""
    listed = (ROOT / "crates.txt").read_text(encoding="utf-8").splitlines()
    return [line.split(":")[0].split()[0] for line in listed if line.strip() and not line.startswith("#")]


def all_files():
    """Yields all files that have a sentence: those of the crates, and those of the tests."""
    for name in crates():
        root, *others = files_of(ROOT / "crates" / name)
        yield root
        yield from itertools.chain(*others)
    yield from files_of_tests()


def make_map(faults):
    """Answers all lines of the document. Notes each file without a sentence, also of those that it does not show."""
    for path in all_files():
        first_sentence(path, faults)
    return [*HEAD.splitlines(), *table(terms_of(LANGUAGE))]


def find(words):
    """Prints each file that has all of these words in its path or its sentence. Answers the exit status."""
    found = False
    for path in all_files():
        line = f"{path.relative_to(ROOT)}: {first_sentence(path, [])}"
        if all(word.lower() in line.lower() for word in words):
            print(line)
            found = True
    return 0 if found else 1


def main(words):
    """Writes or checks the map, or finds files, and answers the exit status."""
    if words and words[0].startswith("-") and words != ["--check"]:
        sys.exit(__doc__.split("\n\n")[1])
    if words and words != ["--check"]:
        return find(words)
    faults = []
    old = DOCUMENT.read_text(encoding="utf-8").splitlines() if DOCUMENT.is_file() else []
    new = make_map(faults)
    if not words:
        DOCUMENT.write_text("\n".join(new) + "\n", encoding="utf-8")
    elif new != old:
        name = str(DOCUMENT.relative_to(ROOT))
        print("\n".join(difflib.unified_diff(old, new, name, "what tools/map.py would write", n=0, lineterm="")))
    print("".join(f"{fault}\n" for fault in faults), end="")
    return 1 if faults or (words and new != old) else 0


if __name__ == "__main__":
    sys.exit(main(sys.argv[1:]))
