#!/usr/bin/env python3
"""Compares what the documents show with its source, and prints what differs.

usage: tests/documents.py [--try]

- Code: a block after a line `<!-- from FILE -->` has to be lines of that file, one after the other. They may be less
  indented than there, all by the same number of spaces.
- Output: a shell block with `rt try --` is run, with the program that `rt ci` or `rt run` built last in that crate. The
  next block has to be what it prints. Each document begins in the crate of its first `cd`. A block after a line
  `<!-- prints CRATE: WORDS -->` has to be what that program prints when it is run with these words of a shell. With
  --try the programs need not be built: the lines run as they stand, which takes a minute or more for each.
- References: `NAME.md, "Section"` has to name a section, also in comments of the code; so has `("Section")` in a
  document, of its own. Linked files have to be there.

The last line counts what was compared; the exit status is 1 if anything differs.
"""

import pathlib
import re
import subprocess
import sys
import textwrap

ROOT = pathlib.Path(__file__).resolve().parent.parent
DOCUMENTS = [ROOT / "README.md", ROOT / "CONTRIBUTING.md", *sorted((ROOT / "docs").glob("*.md"))]

# A block of a document, of any kind; one that shows a file; one that shows what a program prints.
BLOCK = re.compile(r"^```(\w*)\n(.*?)^```$", re.MULTILINE | re.DOTALL)
SOURCE = re.compile(r"^<!-- from (\S+) -->\n```\w*\n(.*?)^```$", re.MULTILINE | re.DOTALL)
PRINTS = re.compile(r"^<!-- prints (\w+): ([^\n]*) -->\n```\w*\n(.*?)^```$", re.MULTILINE | re.DOTALL)

# Sections that are named with their document or without, and links.
SECTION = re.compile(r"((?:[\w.]+/)*[A-Z]+\.md), (\"[^\"]+\"(?:(?:,| and| to) \"[^\"]+\")*)")
OWN_SECTION = re.compile(r"\(\"([A-Z`][^\"]*)\"\)")
LINK = re.compile(r"\]\(([^)#:]+)\)")

# What begins a line of a comment.
MARK = re.compile(r"\n[ \t]*(?:///?|//!|--|#)?[ \t]*")

# What `rt try` adds to the output of a program.
ADDED = re.compile(r"^(?:checked|run)[:=].*\n", re.MULTILINE)


class Comparison:
    """What was compared, and how much of it differs."""

    def __init__(self, tries):
        self.tries = tries
        self.passed = 0
        self.failed = 0

    def check(self, path, title, good, told=""):
        """Counts a comparison, and prints it if it failed."""
        self.passed += bool(good)
        self.failed += not good
        if not good:
            print(f"failed: {path.relative_to(ROOT)}: {title}{told and ':'}\n{told}".rstrip())


def compare_code(result, path, text):
    """Compares each block that names a file with the lines of that file."""
    for name, shown in SOURCE.findall(text):
        file = ROOT / name
        lines = file.read_text(encoding="utf-8").splitlines() if file.is_file() else []
        wanted = shown.splitlines()
        found = any(
            textwrap.dedent("\n".join(lines[at : at + len(wanted)])) == textwrap.dedent("\n".join(wanted))
            for at in range(len(lines) - len(wanted) + 1)
        )
        result.check(path, f"code that {name} does not have", wanted and found, shown)


def printed(command, crate, tries):
    """Answers what a shell command of a document prints, in the folder of a crate."""
    if not tries:
        command = command.replace("rt try --", str(ROOT / "crates" / crate / "out" / crate))
    if not command.startswith("cd "):
        command = f"cd crates/{crate} && {command}"
    run = subprocess.run(["bash", "-c", command], cwd=ROOT, stdin=subprocess.DEVNULL, capture_output=True, timeout=1800)
    output = (run.stdout + run.stderr).decode("utf-8", errors="replace")
    return ADDED.sub("", output) if tries else output


def compare_printed(result, path, command, crate, shown):
    """Compares what a shell command prints with what is shown."""
    output = printed(command, crate, result.tries)
    result.check(path, f"output of {command.strip()}", output == shown, f"shown:\n{shown}printed:\n{output}")


def compare_output(result, path, text):
    """Runs each shell block that runs a program, and compares what it prints with the next block."""
    blocks = BLOCK.findall(text)
    crate = None
    for (language, command), (_, shown) in zip(blocks, blocks[1:] + [("", "")]):
        moved = re.match(r"cd crates/(\w+)", command)
        crate = moved.group(1) if moved else crate
        if language == "sh" and "rt try --" in command:
            compare_printed(result, path, command, crate, shown)
    for crate, words, shown in PRINTS.findall(text):
        compare_printed(result, path, f"rt try -- {words}", crate, shown)


def sections_of(path):
    """Answers the headings of a document."""
    return re.findall(r"^#+ (.*)$", BLOCK.sub("", path.read_text(encoding="utf-8")), re.MULTILINE)


def is_section(title, known):
    """Answers whether a title is one of these headings, or what is before the colon of one."""
    return any(heading == title or heading.startswith(f"{title}:") for heading in known)


def named(name):
    """Answers the document of this name. It is at the top or in docs, unless the name has a folder."""
    return next((it for it in (ROOT / name, ROOT / "docs" / name) if it.is_file()), None)


def compare_references(result, path, text):
    """Looks up each section that is named with its document."""
    for name, titles in SECTION.findall(MARK.sub(" ", text)):
        document = named(name)
        known = sections_of(document) if document else []
        for title in re.findall(r"\"([^\"]+)\"", titles):
            result.check(path, f'{name} has no section "{title}"', is_section(title, known))


def compare_own_references(result, path, text):
    """Looks up each section of the same document, and each linked file."""
    known = sections_of(path)
    plain = BLOCK.sub("", text)
    for title in OWN_SECTION.findall(MARK.sub(" ", plain)):
        result.check(path, f'it has no section "{title}"', is_section(title, known))
    for link in LINK.findall(plain):
        result.check(path, f"{link} is not there", (path.parent / link).exists())


def main(words):
    """Compares all documents, and answers the exit status."""
    if words not in ([], ["--try"]):
        sys.exit(__doc__.split("\n\n")[1])
    result = Comparison(words == ["--try"])
    for path in DOCUMENTS:
        text = path.read_text(encoding="utf-8")
        compare_code(result, path, text)
        compare_output(result, path, text)
        compare_references(result, path, text)
        compare_own_references(result, path, text)
    others = [it for kind in ("*.rt", "*.antt") for it in sorted((ROOT / "crates").glob(f"*/s*/**/{kind}"))]
    for path in [*others, *sorted((ROOT / "tests").glob("*/README.md"))]:
        compare_references(result, path, path.read_text(encoding="utf-8"))
    print(f"{result.passed} passed, {result.failed} failed")
    return 1 if result.failed else 0


if __name__ == "__main__":
    sys.exit(main(sys.argv[1:]))
