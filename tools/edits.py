#!/usr/bin/env python3
"""Tries the wrong bodies of tests/edits. The prover has to refuse each; then the commit is kept.

usage: tools/edits.py [--together] [CRATE|EDIT ..]
       tools/edits.py --old|--check

An EDIT is a file, as tests/edits/rhai_base/nest_peak_is_always_0.edit. Without names all are tried, in a copy of the
crates that the edit needs. Run `rt all check` before: the copy then has what that proved, so most edits take a minute.
If an edit has a line `# right: TEXT`, the crate has to be proved with that text in place of its new one.
Of each that is refused, tests/edits/refused.tsv keeps the commit, the seconds and a sum of what it changes, and
tests/edits/unproved.txt what was not proved. Nothing is kept where files below crates/ are not as they were committed.
With --together one check tries all edits of a crate that change different functions: a function is proved from the
contracts of the others, so each is refused for itself.

--old lists the edits that were never refused, or before the function that they change, or a definition that its
contract names, became what it is now. --check tries nothing: it fails if an edit cannot be applied, if a table names an
edit that is not there, or if an edit that tests/edits/README.md lists as one that every version has to refuse is so
old. The gate runs that. Edits of the gate itself are in crates/*/must-fail; `rt ci` tries those, and --check looks at
them too.
"""

import argparse
import pathlib
import re
import shutil
import subprocess
import sys
import tempfile
import time

sys.dont_write_bytecode = True
sys.path.insert(0, str(pathlib.Path(__file__).resolve().parent / "edits"))

import kept
from changed import item_at, sum_of, what_changed
from edit import CRATES, EDITS, ROOT, changes, crate_of, every, fault, has_right, name_of, of_the_gate
from unproved import goals, lines_of

README = EDITS / "README.md"
LIST = "## What every version has to refuse"


def run(*words, folder=ROOT):
    """Runs a program, and answers what it printed."""
    ran = subprocess.run(words, cwd=folder, capture_output=True, text=True, errors="replace", check=False)
    return ran.stdout + ran.stderr


# ---- Trying.


def listed_in(line):
    """Answers the crate that a line of crates.txt is about, or nothing."""
    return (line.split("#")[0].split(":")[0].split() or [""])[0]


def below(crate):
    """Answers a crate and all that it stands on."""
    lines = (ROOT / "crates.txt").read_text(encoding="utf-8").splitlines()
    needs = {listed_in(line): line.split(":")[1].split() for line in lines if listed_in(line)}
    found, left = [], [crate]
    while left:
        name = left.pop()
        if name in needs and name not in found:
            found.append(name)
            left += needs[name]
    return found


def copy_for(crate, folder):
    """Makes a checkout of a crate and of what it stands on, with what was proved of them."""
    needed = below(crate)
    lines = (ROOT / "crates.txt").read_text(encoding="utf-8").splitlines(keepends=True)
    text = "".join(line for line in lines if listed_in(line) in needed)
    (folder / "crates.txt").write_text(text, encoding="utf-8")
    shutil.copy(ROOT / "HANDLES", folder)
    (folder / "crates").mkdir()
    run("git", "init", "-q", folder=folder)
    for name in needed:
        run("cp", "-a", str(CRATES / name), str(folder / "crates" / name))
    if (ROOT / "out").is_dir():
        run("cp", "-a", str(ROOT / "out"), str(folder / "out"))


def applied(edits, home, right=False):
    """Puts edits into a copy. Answers the texts of the files that they change, as they were."""
    saved = {}
    for file, old, new in (change for edit in edits for change in changes(edit, right)):
        path = home / file
        text = path.read_text(encoding="utf-8")
        saved.setdefault(path, text)
        path.unlink()
        path.write_text(text.replace(old, new), encoding="utf-8")
    return saved


def check_of(edits, home, right=False):
    """Checks a copy with these edits. Answers what was printed, whether all is proved, and the seconds."""
    begun, saved = time.time(), applied(edits, home, right)
    try:
        printed = run("rt", "check", folder=home)
    finally:
        for path, text in saved.items():
            path.write_text(text, encoding="utf-8")
    verdict = next((line for line in reversed(printed.splitlines()) if line.startswith("logic=")), "")
    proved = {"logic=proved": True, "logic=not-proved": False}.get(verdict.split(" ")[0])
    return printed, proved, time.time() - begun


def tried(edit, home):
    """Tries an edit in a copy. Answers whether it was refused, the seconds, and what was not proved."""
    if has_right(edit):
        printed, proved, seconds = check_of([edit], home, right=True)
        if not proved:
            return None, seconds, ["its right body is not proved either", *lines_of(printed, home)]
    printed, proved, seconds = check_of([edit], home)
    if proved is None:
        return None, seconds, (printed.splitlines() or ["nothing was printed"])[-1:]
    return not proved, seconds, [] if proved else lines_of(printed, home)


def functions_of(edit):
    """Answers the functions that an edit changes; nothing if it changes more than functions and what is brought in."""
    found = set()
    for file, old, _ in changes(edit):
        lines = (CRATES / crate_of(edit) / file).read_text(encoding="utf-8").splitlines()
        at = next((n for n, line in enumerate(lines) if old in line), None)
        name = re.search(r"\bfn (\w+)", item_at(lines, at)[0]) if at is not None else None
        if not file.startswith("src/") or not (name or at is not None and re.match("(ghost )?use ", lines[at])):
            return set()
        found |= {name.group(1)} if name else set()
    return found


def groups(edits):
    """Answers the edits in groups in each of which all change different functions; others stand alone."""
    found = []
    for edit in edits:
        functions = functions_of(edit)
        group = next((it for it in found if functions and it[0] and not it[0] & functions), None)
        if group is None:
            found.append(group := [set(), []])
        group[0] |= functions
        group[1].append(edit)
    return [group for _, group in found]


def tried_together(edits, home):
    """Tries edits of different functions in one check of a copy. Yields each with the same as `tried`; the seconds are
    those of the check, shared. What is not found refused so, as a function in a cycle, is tried alone. So are all if
    their right bodies are not proved together."""
    with_right = [edit for edit in edits if has_right(edit)]
    are_right = not with_right or check_of(with_right, home, right=True)[1]
    printed, proved, seconds = check_of(edits, home) if are_right else ("", None, 0)
    found = goals(printed, home)
    for edit in edits:
        said = [f"{name}: {', '.join(found[name])}" for name in sorted(functions_of(edit)) if found.get(name)]
        if said and proved is False:
            yield edit, True, seconds / len(edits), said
        else:
            yield edit, *tried(edit, home)


def keep(edit, seconds, unproved):
    """Keeps that an edit was refused at the commit of this checkout."""
    if not run("git", "status", "--porcelain", "--", "crates").strip():
        commit = run("git", "log", "-1", "--format=%h", "--abbrev=10", "--", "crates").strip()
        kept.keep(name_of(edit), [commit, f"{seconds:.0f}", sum_of(edit)], unproved)


def answers_of(edits, home, together):
    """Yields each edit with whether it was refused, the seconds, and what was not proved."""
    for group in groups(edits) if together else [[edit] for edit in edits]:
        if len(group) > 1:
            yield from tried_together(group, home)
        else:
            yield group[0], *tried(group[0], home)


def try_crate(crate, edits, together):
    """Tries edits of one crate. Answers how many were not refused."""
    failed = 0
    with tempfile.TemporaryDirectory(prefix="edits-") as room:
        copy_for(crate, pathlib.Path(room))
        for edit, refused, seconds, unproved in answers_of(edits, pathlib.Path(room) / "crates" / crate, together):
            word = {True: "refused", False: "NOT REFUSED", None: "NOT TRIED"}[refused]
            print(f"{crate}/{edit.name}: {word} in {seconds:.0f} s", *unproved, sep="\n    ", flush=True)
            if refused and edit.parent.parent == EDITS:
                keep(edit, seconds, unproved)
            failed += not refused
    return failed


# ---- The tables, without trying.


def why_old(edit, row):
    """Answers why an edit with this row, or none, is older than what it changes, or nothing."""
    if not row:
        return "never refused"
    commit, _, known = row
    return "" if known == sum_of(edit) else f"{what_changed(edit, commit)}, since {commit}"


def print_old(edits):
    """Prints which edits are older than what they change, and how many."""
    rows = kept.read_refused()
    old = [(edit, why_old(edit, rows.get(name_of(edit)))) for edit in edits]
    for edit, why in old:
        if why:
            print(f"{name_of(edit)}: {why}")
    print(f"{sum(bool(why) for _, why in old)} of {len(edits)} edits are older than what they change")


def names_in(text):
    """Answers the names of edits in the tables of a text, each with whether it is in the column of the gate."""
    rows = [line.strip()[1:-1].split("|") for line in text.splitlines() if re.search(r"^\| .*`", line)]
    cells = [(cell, at) for row in rows for cell, at in zip(row[-2:], (True, False))]
    return [(name, at) for cell, at in cells for name in re.findall(r"`(\w+)`", cell)]


def faults_of_the_readme(edits, gate):
    """Answers which edits stand in the wrong column of the README or are not there, and which of its list are old."""
    text = README.read_text(encoding="utf-8")
    columns = {edit.stem: True for edit in gate} | {edit.stem: False for edit in edits}
    listed = dict(names_in(text.partition(LIST)[2].partition("\n## ")[0]))
    faults = [f"README.md: {name} is not in that column" for name, at in names_in(text) if columns.get(name) != at]
    faults += [] if listed else [f"README.md has no list of what {LIST.removeprefix('## What ')}"]
    rows = kept.read_refused()
    old = [(edit, why_old(edit, rows.get(name_of(edit)))) for edit in edits if edit.stem in listed]
    return faults + [f"{name_of(edit)} is older than what it changes: {why}" for edit, why in old if why]


def check(edits):
    """Prints the edits that cannot be applied, rows without an edit, and the edits of the list that are old. Answers
    how many there are."""
    gate = of_the_gate()
    faults = [f"{edit.name}: {fault(edit)}" for edit in [*edits, *gate] if fault(edit)]
    rows, unproved = kept.read_refused(), kept.read_unproved()
    faults += [f"refused.tsv names {row}, which is not there" for row in rows if not (EDITS / row).is_file()]
    faults += [f"unproved.txt and refused.tsv differ in {row}" for row in sorted(set(rows) ^ set(unproved))]
    faults += faults_of_the_readme(edits, gate)
    for line in faults:
        print(line)
    print(f"{len(edits)} edits, {sum(name_of(edit) in rows for edit in edits)} of them refused at a known commit")
    print(f"{max(len(edits) + len(gate) - len(faults), 0)} passed, {len(faults)} failed")
    return len(faults)


def main():
    parser = argparse.ArgumentParser(description=__doc__, formatter_class=argparse.RawDescriptionHelpFormatter)
    parser.add_argument("--old", action="store_true", help="list the edits that are older than what they change")
    parser.add_argument("--check", action="store_true", help="test the edits and the tables, and try nothing")
    parser.add_argument("--together", action="store_true", help="try edits of different functions in one check")
    parser.add_argument("names", nargs="*", metavar="CRATE|EDIT", help="crates, or files of edits")
    words = parser.parse_args()
    if words.old:
        return print_old(every())
    if words.check:
        return sys.exit(check(every()) > 0)
    files = [pathlib.Path(name).resolve() for name in words.names if name.endswith(".edit")]
    named = [edit for edit in every() if edit.parent.name in words.names] + files if words.names else every()
    unknown = [edit for edit in named if not edit.is_file()] + [
        name for name in words.names if not name.endswith(".edit") and not (EDITS / name).is_dir()
    ]
    if unknown:
        sys.exit(f"there is no {unknown[0]}")
    crates = sorted({crate_of(edit) for edit in named})
    of_crates = {crate: [edit for edit in named if crate_of(edit) == crate] for crate in crates}
    failed = sum(try_crate(crate, edits, words.together) for crate, edits in of_crates.items())
    print(f"{len(named) - failed} refused, {failed} not")
    sys.exit(failed > 0)


main()
