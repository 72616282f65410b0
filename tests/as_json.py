#!/usr/bin/env python3
"""Runs scripts through `rhai-ast --json`, and prints each run that fails.

usage: tests/as_json.py [PROGRAM]

Without PROGRAM it runs the one that `rt run` in crates/rhai_ast built last. The scripts are the examples, the cases of
tests/diagnostics, each list of tokens in tests/cases that has a text, with its limits and options, and random texts.
Each answer has to be JSON, and to fit docs/tree.schema.json (where Python has `jsonschema`). Nothing may be lost: from
the JSON of a tree, of tokens and of names this script makes the text of docs/FORMAT.md, which has to be what is printed
without `--json`; of a refusal it makes the line that the table of cases has, and compares it with the printed report.
Where memory is refused, the whole answer is printed or the run fails. The last line counts the runs; the exit status is
1 if any failed.
"""

import itertools
import json
import pathlib
import re
import sys
import tempfile
import threading

ROOT = pathlib.Path(__file__).resolve().parent.parent
sys.dont_write_bytecode = True
sys.path.insert(0, str(ROOT / "tests" / "hostile"))

import batch
import printed
import runs
import scripts
import table
import texts

RANDOM_TEXTS = 1000

# The words for the options of the command line, by the bit that they clear.
OPTIONS = {1: "--no-if-expr", 2: "--no-switch-expr", 4: "--no-loop-expr", 8: "--no-stmt-expr", 16: "--no-closures",
           32: "--no-looping", 128: "--no-shadowing"}
LIMITS = {"expr_depth": "--max-depth", "fn_depth": "--max-fn-depth", "functions": "--max-functions",
          "array": "--max-array", "map": "--max-map"}


def words_of(entry, limits):
    """Answers the words for `rhai-ast` that say what these say to `rhai-parse`."""
    out = ["--expression"] if entry == "expr" else []
    for limit in limits:
        name, value = limit.split("=")
        if name == "options":
            out += [word for bit, word in OPTIONS.items() if not int(value) & bit]
            out += ["--strict"] if int(value) & 64 else []
        else:
            out += [LIMITS[name], value]
    return out


class Answers:
    """Answers of the program, each of which counts as a run."""

    def __init__(self, counted, program, fault):
        self.counted = counted
        self.program = program
        self.fault = fault

    def all(self, words, data):
        """Answers what the program answers to each of these texts."""
        return self.program.answers((*words, "-"), data)

    def read(self, title, shape, answer):
        """Answers the JSON that was printed, one line that fits the schema's definition of this name; else None."""
        try:
            line = answer.printed.decode("utf-8")
            value = json.loads(line)
        except ValueError as error:
            self.counted.check(f"{title}, {shape}", False, f"{error}: {answer.printed[:200]}")
            return None
        fault = self.fault(shape, value) if line.count("\n") == 1 and line.endswith("\n") else "no line"
        self.counted.check(f"{title}, {shape}", fault is None, fault)
        return value

    def same(self, title, lines, answer):
        """Counts whether these lines, made of JSON, are what was printed as text."""
        wanted = answer.printed.decode("utf-8").split("\n")[:-1]
        differ = next((pair for pair in itertools.zip_longest(lines, wanted) if pair[0] != pair[1]), None)
        self.counted.check(title, differ is None, differ)


def fault_finder():
    """Answers a function that tells why a value does not fit a definition of the schema; None if it does."""
    try:
        import jsonschema
    except ImportError:
        print("Python has no jsonschema here: no answer is held against the schema")
        return lambda shape, value: None
    schema = json.loads((ROOT / "docs/tree.schema.json").read_text(encoding="utf-8"))
    jsonschema.Draft202012Validator.check_schema(schema)
    wholes = {shape: {"$defs": schema["$defs"], "$ref": f"#/$defs/{shape}"} for shape in schema["$defs"]}
    validators = {shape: jsonschema.Draft202012Validator(whole) for shape, whole in wholes.items()}

    def fault(shape, value):
        error = next(validators[shape].iter_errors(value), None)
        return None if error is None else f"{list(error.absolute_path)}: {error.message[:300]}"

    return fault


def check_tokens(answers, titles, data):
    """Compares the JSON of tokens with their list."""
    lists, found = (answers.all(("tokens", "--doc", word), data) for word in ("--spans", "--json"))
    for title, text, in_json in zip(titles, lists, found):
        lines = [printed.printed_token(token) for token in answers.read(title, "tokens", in_json) or ()]
        answers.same(f"{title}, list of tokens", lines, text)


def check_accepted(answers, title, shape, make, text, in_json):
    """Compares the JSON of an accepted script with what is printed of it."""
    value = answers.read(title, shape, in_json)
    answers.same(f"{title}, text of {shape}", [] if value is None else make(value), text)


def names_lines(names):
    """Answers the lines of names in JSON."""
    return [printed.printed_names(function) for function in names]


def check_scripts(answers, words, titles, data):
    """Compares the JSON of scripts, all read with these words, with what is printed of them. Answers the tree's lines,
    or the line of the refusal, of each."""
    trees, names = (answers.all((command, *words), data) for command in ("tree", "names"))
    asked = [answers.all((command, "--json", *words), data) for command in ("tree", "names", "check")]
    for title, tree, name, *in_json in zip(titles, trees, names, *asked):
        statuses = [tree.status, name.status, *(it.status for it in in_json)]
        good = len(set(statuses)) == 1 and (statuses[0] == 0) == (in_json[2].printed == b"")
        answers.counted.check(f"{title}, statuses", good, statuses)
        if statuses[0] == 0:
            check_accepted(answers, title, "tree", printed.printed_tree, tree, in_json[0])
            check_accepted(answers, title, "names", names_lines, name, in_json[1])
            yield tree.printed.decode("utf-8")
        else:
            answers.counted.check(f"{title}, nothing printed", not (in_json[0].printed or in_json[1].printed))
            value = answers.read(title, "diagnostic", in_json[2])
            yield value and printed.printed_refusal(value) + "\n"


def check_table(answers):
    """Runs the texts of the table, whose answers are known."""
    lists = texts.lists_of(table.all_runs())
    found = texts.with_text(answers.program, lists)
    check_tokens(answers, [lists[it][0].case for it, _ in found], [text for _, text in found])
    asked = [((*words_of(run.words[0], run.words[1:]), "--doc"), run, text) for it, text in found for run in lists[it]]
    for words, group in itertools.groupby(sorted(asked, key=lambda it: it[0]), key=lambda it: it[0]):
        _, of_group, data = zip(*group)
        got = check_scripts(answers, words, [run.name for run in of_group], data)
        for run, lines in zip(of_group, got):
            answers.counted.check(f"{run.name}, answer of the table", lines == run.answer.decode("utf-8"), lines)
    return len(found)


def shown(text):
    """Answers a text as reports show it."""
    pictures = {code: 0x2400 + code for code in range(32) if code != 9} | {127: 0x2421}
    hidden = [*range(0x80, 0xA0), 0x200E, 0x200F, *range(0x2028, 0x202F), *range(0x2066, 0x206A)]
    return text.translate(pictures | dict.fromkeys(hidden, 0xFFFD))


def parts_of(report):
    """Answers what a printed report tells: each message with its place, and the number of carets."""
    parts = [[report.split("\n")[0].removeprefix("error: "), None, None]]
    for line in report.split("\n")[1:]:
        if note := re.match(r"(?: *= )?note: (.*)", line):
            parts.append([note[1], None, None])
        elif place := re.match(r" *--> (.*)", line):
            parts[-1][1] = place[1]
        elif under := re.match(r" +\| [ \t]*(\^[\^\t]*)$", line):
            parts[-1][2] = len(under[1])
    return parts


def carets(text, span):
    """Answers how many carets underline these bytes; None if that is not plain."""
    line = text[span["start"] : span["stop"]].split(b"\n")[0].removesuffix(b"\r")
    return max(len(line), 1) if line.isascii() and line.decode().isprintable() and len(line) <= 60 else None


def same_part(part, place, value, text):
    """Answers whether a part of a report is what the JSON says: the message, the place, and what is underlined."""
    message, stands, under = part
    if message != shown(value["message"]) or (stands is None) != (value["line"] is None):
        return False
    if stands is None:
        return value["column"] is None and value["span"] is None
    width = carets(text, value["span"])
    return stands == f"{place}:{value['line']}:{value['column']}" and width in (None, under)


def check_reports(answers, folder, words, files):
    """Runs files, each refused, once for reports and once for JSON: both tell the same."""
    status, _, told = answers.counted.run("check", *words, *files, folder=folder)
    also, objects, more = answers.counted.run("check", "--json", *words, *files, folder=folder)
    reports = re.split(r"\n\n(?=error: )", told)
    lines = objects.split("\n")[:-1]
    good = (status, also, more) == (1, 1, "") and len(reports) == len(lines)
    answers.counted.check(f"reports on {len(files)} files", good, f"{status}, {also}, {more}, {len(reports)}")
    for report, line in zip(reports, lines):
        value = json.loads(line)
        text = (folder / value["file"]).read_bytes()
        parts = parts_of(report.rstrip("\n"))
        wanted = [value, *sorted(value["notes"], key=lambda note: note["line"] is not None)]
        same = [same_part(part, value["file"], it, text) for part, it in zip(parts, wanted)]
        good = len(parts) == len(wanted) and all(same)
        answers.counted.check(f"report on {value['file']}", good, f"{report}\n{line}")


def check_refusals(answers, folder):
    """Runs the cases that are refused, and random texts, for reports and for JSON."""
    cases = sorted(scripts.CASES.glob("*.rhai"))
    for words, group in itertools.groupby(sorted(cases, key=scripts.options_of), key=scripts.options_of):
        check_reports(answers, scripts.CASES, words, [case.name for case in group])
    data = [text.encode("utf-8") for text in scripts.random_texts(RANDOM_TEXTS)]
    names = [f"{number}.rhai" for number in range(len(data))]
    for name, text in zip(names, data):
        (folder / name).write_bytes(text)
    check_tokens(answers, names, data)
    got = list(check_scripts(answers, (), names, data))
    refused = [name for name, lines in zip(names, got) if lines is None or lines.startswith("refused")]
    check_reports(answers, folder, [], refused)


def check_document(answers, folder):
    """Runs the examples of docs/JSON.md that are whole; there they stand in several lines."""
    document = (ROOT / "docs/JSON.md").read_text(encoding="utf-8")
    blocks = ["".join(it.split("\n")) for it in re.findall(r"```json\n(.*?)```", document, re.DOTALL) if ".." not in it]
    scripts_of = {"tree": "a + 1", "check": "print((1 + 2;", "tokens": "a", "names": "fn f(x) { g(x) + y }"}
    answers.counted.check("examples of JSON.md", len(blocks) == len(scripts_of), blocks)
    for block, (command, text) in zip(blocks, scripts_of.items()):
        (folder / "sum.rhai").write_text(text)
        _, told, _ = answers.counted.run(command, "--json", "sum.rhai", folder=folder)
        answers.counted.check(f"example of {command} in JSON.md", block in told, told)


def has_failed(answer):
    """Answers whether a run told that memory ran out: on the error output, or as the refusal of a script."""
    return answer.status == 2 and (not answer.printed or json.loads(answer.printed)["kind"] == "OutOfMemory")


def check_memory(answers):
    """Refuses each request for memory in turn: the whole answer is printed, or the run fails."""
    good = b"fn f(x) { #{a: [x, 'c', `t${y}`]} } switch 1 { 1..3 if a => f(2), _ => m::b.c }"
    for command, text in (("tokens", good), ("tree", good), ("names", good), ("check", b"f(1, {")):
        found = answers.program.answers((command, "--json", "-"), [text], refuse=True)
        whole = (found[-1].status, found[-1].printed)
        fits = all((answer.status, answer.printed) == whole or has_failed(answer) for answer in found)
        failed = sum(answer.status == 2 for answer in found)
        answers.counted.check(f"refused memory of {command}", fits and failed > len(found) // 2, (failed, len(found)))


def make(counted):
    """Makes all runs."""
    with tempfile.TemporaryDirectory() as folder:
        program = batch.Program(batch.compile_forks(folder), counted.program)
        answers = Answers(counted, program, fault_finder())
        files = scripts.examples()
        data = [file.read_bytes() for file in files]
        names = [file.name for file in files]
        check_tokens(answers, names, data)
        list(check_scripts(answers, ("--doc",), names, data))
        print(f"{check_table(answers)} lists of the table have a text")
        check_refusals(answers, pathlib.Path(folder))
        check_document(answers, pathlib.Path(folder))
        check_memory(answers)


def run():
    """Makes all runs, deep in a tree too."""
    sys.setrecursionlimit(1_000_000)
    status = []
    threading.stack_size(1 << 29)
    thread = threading.Thread(target=lambda: status.append(runs.main(make)))
    thread.start()
    thread.join()
    return status[0] if status else 1


if __name__ == "__main__":
    sys.exit(run())
