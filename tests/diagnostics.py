#!/usr/bin/env python3
"""Runs `rhai-ast check` and its kin, and prints each run that fails.

usage: tests/diagnostics.py [PROGRAM]

Without PROGRAM it runs the one that `rt run` in crates/rhai_ast built last. Each tests/diagnostics/NAME.rhai has what
is told of it beside it, written by hand from docs/GRAMMAR.md and docs/FORMAT.md, and the options that it needs. Further
runs are of several files, of files that cannot be read, of wrong words, of long and odd texts, with each request for
memory refused in turn, and of random texts, where each report has to show the line and the column that it names. The
last line counts the runs; the exit status is 1 if any failed.
"""

import os
import pathlib
import re
import subprocess
import sys
import tempfile

ROOT = pathlib.Path(__file__).resolve().parent.parent
sys.dont_write_bytecode = True
sys.path.insert(0, str(ROOT / "tests" / "hostile"))

import batch
from runs import main
from scripts import CASES, options_of, random_texts

# A report: its message, its place, its line, what is underlined, and its notes.
REPORT = re.compile(
    r"error: (?P<message>[^\n]*)\n"
    r" *--> (?P<file>[^\n]*):(?P<line>\d+):(?P<column>\d+)\n"
    r" +\|\n"
    r"(?P<number>\d+) *\|(?: (?P<text>[^\n]*))?\n"
    r" +\| (?P<under>[ \t]*\^[\^\t]*)\n"
    r"(?: +=\ note: [^\n]*\n)*"
    r"(?:note: [^\n]*\n *--> [^\n]*:\d+:\d+\n +\|\n\d+ *\| [^\n]*\n +\| [ \t]*\^+\n)*"
)

def check_cases(runs):
    """Compares what is told of each case with what is beside it. No tree and no names are printed."""
    for case in sorted(CASES.glob("*.rhai")):
        wanted = case.with_suffix(".stderr").read_text(encoding="utf-8")
        for command in ("check", "tree", "names"):
            got = runs.run(command, *options_of(case), case.name)
            runs.expect(f"{command} {case.name}", got, (1, "", wanted))


def check_accepted(runs):
    """Runs examples, of which nothing is told, and compares their trees with those beside them."""
    outputs = [file for file in sorted((ROOT / "examples").glob("*.out")) if file.with_suffix(".rhai").is_file()]
    scripts = [file.with_suffix(".rhai") for file in outputs]
    runs.expect("the examples", runs.run("check", *scripts), (0, "", ""))
    for script, output in zip(scripts, outputs):
        wanted = output.read_text(encoding="utf-8")
        runs.expect(f"tree {script.name}", runs.run("tree", "--doc", script), (0, wanted, ""))
    got = runs.run("names", "-", text="fn f(x) { y = x + g(1); z } fn g(a) { a }")
    runs.expect("names", got, (0, "f/1: free y, z; calls g/1\ng/1: free -; calls -\n", ""))
    got = runs.run("check", "--expression", "--strict", "--constant", "a", "--constant", "b", "-", text="a + b")
    runs.expect("an expression", got, (0, "", ""))
    deep = "m::f(" + "(" * 70 + "1" + ")" * 71
    got = runs.run("check", "--strict", "--module", "m", "--max-depth", "0", "-", text=deep)
    runs.expect("a module", got, (0, "", ""))


def check_files(runs, folder):
    """Runs several files, and files that cannot be read."""
    (folder / "good.rhai").write_text("let a = 1;")
    (folder / "bad.rhai").write_text("let 1 = a;\n")
    (folder / "bytes.rhai").write_bytes(b"let a = 1;\nlet \xc3\xa9b = \"\xff\";")
    bad = "error: Expecting name of a variable\n --> bad.rhai:1:5\n  |\n1 | let 1 = a;\n  |     ^\n"
    missing = "error: missing.rhai: No such file or directory (os error 2)\n"
    is_folder = "error: .: Is a directory (os error 21)\n"
    no_text = "error: bytes.rhai: not UTF-8\n --> bytes.rhai:2:11\n"
    no_text += "  = note: byte 22, counted from 0, is 0xff and belongs to no character\n"
    for title, files, status, told in (
        ("good and bad", ["good.rhai", "bad.rhai", "good.rhai", "bad.rhai"], 1, [bad, bad]),
        ("a missing file", ["missing.rhai", "bad.rhai"], 2, [missing, bad]),
        ("a folder", [".", "good.rhai"], 2, [is_folder]),
        ("no UTF-8", ["bytes.rhai", "bad.rhai"], 2, [no_text, bad]),
    ):
        got = runs.run("check", *files, folder=folder)
        runs.expect(title, got, (status, "", "\n".join(told)))
    got = runs.run("check", "-", text="let 1 = a;\n", folder=folder)
    runs.expect("standard input", got, (1, "", bad.replace("bad.rhai", "<stdin>")))
    if os.geteuid() != 0:
        (folder / "locked.rhai").touch(0)
        got = runs.run("check", "locked.rhai", folder=folder)
        runs.expect("no leave", got, (2, "", "error: locked.rhai: Permission denied (os error 13)\n"))


def check_words(runs):
    """Runs wrong words, of which each says which and why."""
    for words, told in (
        ([], "requires a subcommand"),
        (["parse"], "unrecognized subcommand 'parse'"),
        (["check"], "<FILE>..."),
        (["tree", "a", "b"], "unexpected argument 'b'"),
        (["check", "--max-depth", "x", "-"], "invalid value 'x' for '--max-depth <N>'"),
        (["check", "--max-array", "-1", "-"], "'-1'"),
        (["check", "--max-map", "18446744073709551616", "-"], "'18446744073709551616'"),
        (["check", "--max-string"], "'--max-string <N>'"),
        (["check", "--constant", "1a", "-"], "invalid value '1a' for '--constant <NAME>'"),
        (["check", "--module", "a.b", "-"], "invalid value 'a.b' for '--module <NAME>'"),
        (["check", "--color", "blue", "-"], "invalid value 'blue' for '--color <WHEN>'"),
        (["check", "--colour", "-"], "'--colour'"),
        (["tokens", "--strict", "-"], "'--strict'"),
    ):
        status, printed, said = runs.run(*words)
        runs.check(f"words {words}", status == 2 and printed == "" and told in said, f"{status}, {printed}, {said}")
    for word in ("--help", "--version", "help"):
        status, printed, said = runs.run(word)
        runs.check(word, status == 0 and "rhai" in printed and said == "", f"{status}, {printed}, {said}")


def check_colours(runs):
    """Runs with colours: they change nothing else."""
    for case in ("missing_brace", "variable_undefined", "tabs"):
        file = CASES / f"{case}.rhai"
        status, _, told = runs.run("check", *options_of(file), "--color", "always", file.name)
        plain = re.sub("\x1b\\[[0-9;]*m", "", told)
        wanted = file.with_suffix(".stderr").read_text(encoding="utf-8")
        runs.check(f"colours of {case}", (status, plain) == (1, wanted) and told != plain, told)


def check_pipes(runs):
    """Closes the output before it is written."""
    for command, text in (("check", "let 1"), ("tree", "1 + 2"), ("tokens", "1 + 2"), ("names", "fn f() {}")):
        reader, writer = os.pipe()
        os.close(reader)
        run = subprocess.run([runs.program, command, "-"], input=text.encode(), stdout=writer, stderr=writer)
        os.close(writer)
        runs.check(f"a closed output of {command}", run.returncode == 2, run)


def check_odd(runs):
    """Runs long and deep texts."""
    deep = "{" * 100_000
    for title, text, place in (
        ("one line of a megabyte", "a;" * 500_000 + "let 1;", "1:1000005"),
        ("many lines", "a;\n" * 100_000 + "let 1;", "100001:5"),
        ("opened blocks", deep, "1:33"),
        ("opened groups", "(" * 100_000, "1:32"),
        ("opened functions", "fn f() {" * 10_000, "1:9"),
        ("closed blocks", "}" * 100_000, "1:1"),
        ("zero bytes", "\0" * 1000, "1:1"),
        ("a byte order mark", "\ufefflet a = 1;", "1:1"),
        ("the end of the text", "a +", "1:4"),
        ("nothing", "#!", None),
    ):
        status, printed, told = runs.run("check", "-", text=text)
        if place is None:
            runs.expect(title, (status, printed, told), (0, "", ""))
            continue
        report = REPORT.fullmatch(told)
        got = report and f"{report['line']}:{report['column']}"
        good = status == 1 and printed == "" and got == place and len(told) < 2000
        runs.check(title, good, f"status {status}, {got}, {told[:1000]}")


def check_refused(runs, folder):
    """Refuses each request for memory of some cases in turn: the script is still refused, or the run fails."""
    program = batch.Program(batch.compile_forks(folder), runs.program)
    for name in ("missing_brace", "variable_undefined", "wrong_escape"):
        case = CASES / f"{name}.rhai"
        found = program.answers(["check", *options_of(case), "-"], [case.read_bytes()], refuse=True)
        failed = sum(answer.status == 2 for answer in found)
        good = all(answer.status in (1, 2) and not answer.printed for answer in found) and found[-1].status == 1
        runs.check(f"refused memory of {name}", good and failed > len(found) // 2, f"{failed} of {len(found)}")


def shows(report, text):
    """Answers whether a report shows the line and the column that it names. Widths are known for ASCII alone."""
    lines = text.split("\n")
    number, column = int(report["line"]), int(report["column"])
    if number > len(lines) or report["number"] != report["line"]:
        return False
    line, shown = lines[number - 1].removesuffix("\r"), report["text"] or ""
    if not (line.isascii() and line.replace("\t", "").isprintable()) or len(line) > 160:
        return True
    start, stop = len(report["under"]) - len(report["under"].lstrip(" \t")), len(report["under"])
    return shown == line and start < column <= stop and stop <= max(len(line), start + 1)


def check_random(runs, folder, count=1000):
    """Runs random texts in one call: each is accepted, or has a report that shows its place."""
    texts = dict((f"{number}.rhai", text) for number, text in enumerate(random_texts(count)))
    for name, text in texts.items():
        (folder / name).write_bytes(text.encode("utf-8"))
    status, printed, told = runs.run("check", *texts, folder=folder)
    runs.check("random texts", status == 1 and printed == "", f"status {status}, {printed}")
    reports = ["error: " + part for part in told.removeprefix("error: ").split("\n\nerror: ")]
    runs.check("refused texts", len(reports) > count // 2, f"{len(reports)}")
    for told in reports:
        report = REPORT.fullmatch(told if told.endswith("\n") else told + "\n")
        runs.check("a report", report and shows(report, texts[report["file"]]), "\n" + told)


def make(runs):
    """Makes all runs."""
    check_cases(runs)
    check_accepted(runs)
    check_words(runs)
    check_colours(runs)
    check_pipes(runs)
    check_odd(runs)
    with tempfile.TemporaryDirectory() as folder:
        check_files(runs, pathlib.Path(folder))
        check_random(runs, pathlib.Path(folder))
        check_refused(runs, folder)


if __name__ == "__main__":
    sys.exit(main(make))
