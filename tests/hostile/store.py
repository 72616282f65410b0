#!/usr/bin/env python3
"""Writes refusals.txt and trees.txt (README.md) anew, from the answers of another parser.

It has to have the command line and formats of docs/FORMAT.md, and never is the program under test.

usage: tests/hostile/store.py PROGRAM LIBRARY [WORD ..]

Each WORD is given to PROGRAM after the words of a run. With the word LIBRARY too it prints after a refusal, as after a
script, how many functions there are, as `functions 1`.
"""

import os
import pathlib
import sys
import tempfile

sys.dont_write_bytecode = True
sys.path.insert(0, str(pathlib.Path(__file__).resolve().parent))

import batch
import damaged
import libraries
import stored

HEADS = {
    stored.REFUSALS: """\
# Answers to damaged lists that no rule gives (README.md, which says how they were made): for runs of a case how many
# tokens they read, how many functions have ended, and for a damaged token, counted from 1, the whole answer.
""",
    stored.TREES: """\
# Checksums of the answers to lists that are cut and accepted (README.md, which says how they were made): for an entry
# the tokens before which the list is cut, counted from 1, each with its checksum.
""",
}
RUNS_AT_ONCE = 50


def read_by(run, found):
    """How many tokens the parser reads: an error for want of memory is refused where it is."""
    if run.first in ("accepted", damaged.NO_MEMORY):
        return damaged.tokens_read(run)
    memory = [answer.first == damaged.NO_MEMORY for damage, answer in found if damage.what == "memory"]
    return memory.index(False) if False in memory else len(memory)


def add_line(lines, place, kind, text):
    """Adds what is stored of damage of a kind; all errors at a place have one answer."""
    if lines.setdefault((place, kind), text) != text:
        raise ValueError(f"{kind} at token {place + 1}: {text}, and {lines[place, kind]}")


def stored_text(damage, answer):
    """An answer as refusals.txt has it."""
    is_accepted = answer.first == "accepted"
    if answer.status != (0 if is_accepted else 1) or (not is_accepted and answer.text != f"{answer.first}\n"):
        raise ValueError(f"{damage}: {answer}")
    return f"accepted {stored.checksum_of(answer.printed)}" if is_accepted else answer.first


def answers_of(run, found, read, known):
    """The lines of refusals.txt by place and kind, and the checksums of trees by place."""
    lines, trees = {}, {}
    for damage, answer in found:
        text = stored_text(damage, answer)
        rule = run.first if damage.place >= read else damaged.by_rule(run, damage)
        if damage.place >= read or (damage.what == "mark" and rule == run.first):
            if answer.printed != run.answer:
                raise ValueError(f"{damage}: {answer}")
        elif answer.first != rule:
            add_line(lines, damage.place, damage.kind, text)
        elif rule == "accepted" and known.same_list(run, damage) != answer.text:
            trees[damage.place] = stored.checksum_of(answer.printed)
    return lines, trees


def joined(lines):
    """Joins equal lines of errors and of the cut at one place."""
    for (place, kind), text in sorted(lines.items()):
        if kind == "errors" and lines.get((place, "cut")) == text:
            yield f"{place + 1} all {text}"
        elif kind != "cut" or lines.get((place, "errors")) != text:
            yield f"{place + 1} {kind} {text}"


def by_words(runs):
    found = {}
    for run in runs:
        found.setdefault(run.words, []).append(run)
    for same in found.values():
        yield from (same[at : at + RUNS_AT_ONCE] for at in range(0, len(same), RUNS_AT_ONCE))


def ended_lines(program, library, run, read):
    """The line of how many functions have ended in the end of a run, if no rule says it."""
    fewest, most = libraries.in_the_end(run, read)
    if fewest == most:
        return []
    answer = program.answers((*run.words, library), [run.list])[0]
    if answer.first != run.first:
        raise ValueError(f"{run.name}: {answer.first}")
    return [f"ended {answer.text.split('functions ')[1].split()[0]}"]


def all_answers(program, library, runs):
    """What is to be stored: words of runs by case and lines, and checksums by case, entry and place."""
    refusals, trees, known = {}, {}, stored.Stored(runs, {}, {})
    for same in by_words(runs):
        for run, found in damaged.answers(program, same):
            read = read_by(run, found)
            lines, cuts = answers_of(run, found, read, known)
            texts = [f"reads {read}"] if read != damaged.tokens_read(run) else []
            texts += ended_lines(program, library, run, read)
            if texts or lines:
                refusals.setdefault((run.case, (*texts, *joined(lines))), []).append(" ".join(run.words))
            trees.setdefault(run.case, {}).setdefault(run.words[0], {}).update(cuts)
    return refusals, trees


def write(path, cases, lines):
    """Writes the lines of each case, in the order of the cases."""
    with open(path, "w", encoding="utf-8") as file:
        file.write(HEADS[path])
        for case in cases:
            if lines.get(case):
                file.write(f"\n== {case}\n" + "".join(f"{line}\n" for line in lines[case]))


def refusal_lines(refusals):
    found = {}
    for (case, lines), words in refusals.items():
        found.setdefault(case, []).extend([*(f"$ {it}" for it in words), *lines])
    return found


def tree_lines(trees):
    found = {}
    for case, entries in trees.items():
        for entry, cuts in entries.items():
            pairs = [f"{place + 1}:{checksum}" for place, checksum in sorted(cuts.items())]
            found.setdefault(case, []).extend(wrapped(entry, pairs))
    return found


def wrapped(entry, pairs, width=120):
    """Lines of pairs that each begin with the entry."""
    line = entry
    for pair in pairs:
        if len(line) + 1 + len(pair) > width:
            yield line
            line = entry
        line += f" {pair}"
    if line != entry:
        yield line


def main():
    runs = stored.list_runs()
    cases = list(dict.fromkeys(run.case for run in runs))
    with tempfile.TemporaryDirectory() as folder:
        forks = batch.compile_forks(folder)
        program = batch.Program(forks, os.path.realpath(sys.argv[1]), tuple(sys.argv[3:]))
        refusals, trees = all_answers(program, sys.argv[2], runs)
    write(stored.REFUSALS, cases, refusal_lines(refusals))
    write(stored.TREES, cases, tree_lines(trees))


main()
