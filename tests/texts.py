#!/usr/bin/env python3
"""Runs texts through `rhai-ast tokens`, and prints each run that fails.

usage: tests/texts.py [PROGRAM [PARSER]]

Without PROGRAM it runs the one that `rt run` in crates/rhai_ast built last. It runs the rows of tests/texts.txt, each
script of examples/ that has a list of tokens beside it, texts that are hard to read, and for each kind of piece a
short text and a long one: the long one has to take time in proportion. For each script and each row it also refuses
each request for memory in turn. `rhai-parse` (PARSER, or the one that `rt run` in crates/rhai_parse built last) reads
back the tokens of the rows and of texts with carriage returns. The last line counts the runs; the exit status is 1 if
any failed.
"""

import json
import pathlib
import sys
import tempfile
import time

ROOT = pathlib.Path(__file__).resolve().parent.parent
sys.dont_write_bytecode = True
sys.path.insert(0, str(ROOT / "tests" / "hostile"))

import batch
from runs import Runs, main
from scripts import examples

PARSER = ROOT / "crates/rhai_parse/out/rhai_parse"

# Scripts with carriage returns in a string, in a raw one and in an interpolated one, and a line of the tree of each.
RETURNS = {r'"a\r"': "Str 1:1 a\r", '#"\r"#': "Str 1:1 \r", "`a\r${b}c\r`": "Str 1:8 c\r"}

# How much longer than in proportion a long text may take: time that grows with the square of the size takes ten times
# as long, and a busy machine makes a difference.
EXTRA = 4

# A kind of piece, and the text that is repeated.
KINDS = {
    "white space": " ",
    "line feeds": "\n",
    "words": "word ",
    "other words": "w{n} ",
    "integers": "12 ",
    "symbols": "=== ",
    "hashes": "#",
    "comments": "/* x */",
    "opened comments": "/*",
    "line comments": "// x\n",
    "strings": '"a" ',
    "wrong escapes": '"\\q" ',
    "doubled quotes": '""',
    "lines that go on": '"\\\n',
    "characters": "'a' ",
    "interpolations": "`${",
    "raw strings": '##"a"# ',
    "strays": "é",
}


def tokens(runs, text, *words):
    """Answers the status, the lines that the program prints for a text, and the seconds that it takes."""
    begun = time.monotonic()
    status, printed, _ = runs.run("tokens", *words, "-", text=text)
    return status, printed.split("\n")[:-1], time.monotonic() - begun


def rows():
    """Answers the rows of texts.txt: each as it stands there, its text, and its tokens without positions."""
    lines = (ROOT / "tests/texts.txt").read_text(encoding="utf-8").splitlines()
    for row in [line for line in lines if not line.startswith("#")]:
        text, after = json.JSONDecoder().raw_decode(row)
        yield row, text, [word.strip() for word in row[after:].strip().split("  ")] + ["eof"]


def check_rows(runs):
    """Runs the rows of texts.txt."""
    for row, text, wanted in rows():
        status, lines, _ = tokens(runs, text)
        got = [line.split(" ", 1)[1] for line in lines]
        runs.check(row, (status, got) == (0, wanted), f"status {status}, {got}")


def check_examples(runs):
    """Compares the tokens of each example with the list beside it."""
    for script in examples():
        wanted = script.with_suffix(".tokens").read_text(encoding="utf-8").split("\n")[:-1]
        status, lines, _ = tokens(runs, script.read_bytes(), "--doc")
        runs.check(script.name, (status, lines) == (0, wanted), f"status {status}")


def check_hard(runs):
    """Runs texts that are hard to read, of which the end is known."""
    deep = 100_000
    for title, text, count, last in (
        ("zero bytes", "\0" * 1000, 1001, "1:1001 eof"),
        ("one line of a megabyte", "a " * 500_000, 500_001, "1:65535 eof"),
        ("nested comments", "/*" * deep + "*/" * deep + "a", 2, "1:65535 eof"),
        ("nested interpolations", "`${" * deep + "}`" * deep, 4 * deep + 1, "1:65535 eof"),
        ("lines", "a\n" * 70_000, 70_001, "65535:4467 eof"),
        ("first line", "#!/bin/rhai\na", 2, "2:2 eof"),
        ("first line alone", "#!/bin/rhai", 1, "1:1 eof"),
        ("carriage returns", "a\r\nb\r", 3, "2:3 eof"),
    ):
        status, lines, _ = tokens(runs, text)
        told = f"status {status}, {len(lines)} lines, {lines[-1:]}"
        runs.check(title, (status, len(lines), lines[-1:]) == (0, count, [last]), told)
    status, lines, _ = tokens(runs, b"a \xff b")
    runs.check("no UTF-8", (status, lines) == (2, []), f"status {status}")
    status, lines, _ = tokens(runs, '"abcd" "abc"', "--spans", "--max-string", "3")
    wanted = ["1:1 err toolong 3 @0..6", "1:8 str abc @7..12", "1:13 eof"]
    runs.check("a long string", (status, lines) == (0, wanted), lines)
    status, lines, _ = tokens(runs, "/// x\r\na", "--doc", "--spans")
    wanted = ["1:1 doc ///\\sx @0..6", "2:1 id a @7..8", "2:2 eof"]
    runs.check("a doc comment", (status, lines) == (0, wanted), lines)
    status, _, told = runs.run("tokens", ROOT / "no such file")
    runs.check("no file", status == 2 and "no such file" in told, told)


def check_read_back(runs):
    """Gives the tokens of texts to `rhai-parse`: a script has the same tree by its text and by its tokens, or both are
    refused."""
    parser = Runs(sys.argv[2] if len(sys.argv) > 2 else PARSER)
    for text in [*(text for _, text, _ in rows()), *RETURNS]:
        _, lines, _ = tokens(runs, text)
        status, tree, _ = runs.run("tree", "-", text=text)
        got, answer, _ = parser.run("script", text="\n".join(lines))
        same = got == status and (status != 0 or answer == tree)
        runs.check(f"tokens of {text!r}", same, f"status {got}, {answer!r}, and of the text {status}, {tree!r}")
        line = RETURNS.get(text, "")
        runs.check(f"tree of {text!r}", f"{line}\n" in answer, answer)


def check_refused(runs):
    """Refuses each request for memory of the examples and of the rows in turn. The run fails, and prints nothing, or it
    does without, and prints the whole list."""
    texts = [script.read_bytes() for script in examples()]
    texts += [text.encode("utf-8") for _, text, _ in rows()]
    with tempfile.TemporaryDirectory() as folder:
        program = batch.Program(batch.compile_forks(folder), runs.program)
        for text in texts:
            found = program.answers(["tokens", "--doc", "-"], [text], refuse=True)
            runs.check("memory is requested", len(found) > 1, text)
            whole = (0, found[-1].printed)
            for number, answer in enumerate(found, 1):
                good = (answer.status, answer.printed) in (whole, (2, b""))
                runs.check(f"request {number} of {text[:40]}", good, f"status {answer.status}, {answer.printed[:80]}")
            failed = sum(answer.status == 2 for answer in found)
            runs.check("requests that are needed", failed > len(found) // 2, f"{failed} of {len(found)}, {text[:40]}")


def repeated(kind, size):
    """Answers a text of about this many bytes that repeats a kind of piece."""
    if "{n}" in kind:
        return "".join(kind.replace("{n}", str(n)) for n in range(size // 8))
    return kind * (size // len(kind.encode()))


def check_growth(runs):
    """Runs each kind of piece in a megabyte and in ten: the time grows with the size."""
    for title, kind in KINDS.items():
        short = min(tokens(runs, repeated(kind, 1_000_000))[2] for _ in range(3))
        long = min(tokens(runs, repeated(kind, 10_000_000))[2] for _ in range(2))
        runs.check(title, long <= EXTRA * 10 * max(short, 0.01), f"{short:.3f} s, and {long:.3f} s for ten times")


def make(runs):
    """Makes all runs."""
    check_rows(runs)
    check_examples(runs)
    check_hard(runs)
    check_read_back(runs)
    check_refused(runs)
    check_growth(runs)


if __name__ == "__main__":
    sys.exit(main(make))
