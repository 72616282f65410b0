"""Answers to damaged lists that no rule gives: refusals.txt and trees.txt (README.md)."""

import functools
import hashlib
import pathlib
from typing import NamedTuple

import table
from damaged import tokens_read
from libraries import in_the_end

FOLDER = pathlib.Path(__file__).parent
REFUSALS, TREES = FOLDER / "refusals.txt", FOLDER / "trees.txt"
MAY_TAKE_THE_END = ("|", "||")  # a closure whose body is empty has the position of the end mark in its tree


def checksum_of(answer):
    return hashlib.sha256(answer).hexdigest()[:8]


def blocks(path):
    """The blocks of a file: what follows each `== `, as lines."""
    for block in ("\n" + path.read_text(encoding="utf-8")).split("\n== ")[1:]:
        yield [line for line in block.split("\n") if line]


class Lines(NamedTuple):
    """What refusals.txt says of a run."""

    reads: int | None  # how many tokens it reads, if not as many as by the rule
    ended: int | None  # how many functions have ended in the end, if no rule says it
    answers: dict  # by place and kind of damage


def lines_of(texts):
    """What these lines say. `all` are errors and the cut."""
    found = Lines(None, None, {})
    for text in texts:
        place, kind, *answer = text.split(" ", 2)
        if place in ("reads", "ended"):
            found = found._replace(**{place: int(kind)})
            continue
        for one in ("errors", "cut") if kind == "all" else (kind,):
            found.answers[int(place) - 1, one] = answer[0]
    return found


def groups(lines):
    """Yields the words of runs, which begin with `$`, with the lines that follow them."""
    words, of_runs = [], []
    for line in [*lines, "$"]:
        if line.startswith("$") and of_runs:
            yield words, of_runs
            words, of_runs = [], []
        if line.startswith("$"):
            words.append(tuple(line[1:].split()))
        else:
            of_runs.append(line)


def read_refusals(path=REFUSALS):
    """What the file says, by the case and the words of a run."""
    found = {}
    for case, *lines in blocks(path):
        for words, of_runs in groups(lines):
            found.update({(case, one): lines_of(of_runs) for one in words})
    return found


def read_trees(path=TREES):
    """The checksums of the answers to lists that are cut and accepted, by case, entry and place."""
    found = {}
    for case, *lines in blocks(path):
        for entry, *pairs in map(str.split, lines):
            for pair in pairs:
                place, checksum = pair.split(":")
                found[case, entry, int(place) - 1] = checksum
    return found


def accepted_lists(runs):
    """The answers to lists that are accepted, by entry and tokens, where all limits and options give the same."""
    found = {}
    for run in runs:
        if run.first == "accepted":
            found.setdefault((run.words[0], tuple(run.lines[:-1])), set()).add(run.answer.decode())
    return {key: answers.pop() for key, answers in found.items() if len(answers) == 1}


class Stored:
    """What is stored, and what the table of cases says of lists that are accepted."""

    checksum_of = staticmethod(checksum_of)

    def __init__(self, runs, refusals, trees):
        self.refusals, self.trees, self.accepted = refusals, trees, accepted_lists(runs)

    def tokens_read(self, run):
        lines = self.refusals.get((run.case, run.words))
        return tokens_read(run) if lines is None or lines.reads is None else lines.reads

    def functions_ended(self, run):
        """How many functions and closures have ended in the end of a run."""
        lines, by_rule = self.refusals.get((run.case, run.words)), in_the_end(run, self.tokens_read(run))
        if lines is not None and lines.ended is not None:
            return lines.ended
        if by_rule.fewest != by_rule.most:
            raise ValueError("refusals.txt lacks how many functions have ended")
        return by_rule.fewest

    def answer(self, run, damage):
        lines = self.refusals.get((run.case, run.words))
        if lines is None or damage.what == "memory":
            return None
        return lines.answers.get((damage.place, damage.kind))

    def lacks_ended(self, run, count):
        """Whether no rule says how many functions have ended in the end of a run, and it may be so many."""
        fewest, most = in_the_end(run, self.tokens_read(run))
        return fewest < most and fewest <= count <= most

    def same_list(self, run, damage):
        """The answer of the table to the same tokens. Where the end mark stands makes no difference to it."""
        if damage.place and damage.lines[damage.place - 1].split(" ")[-1] in MAY_TAKE_THE_END:
            return None
        return self.accepted.get((run.words[0], tuple(damage.lines[:-1])))

    def checksum(self, run, damage):
        found = self.trees.get((run.case, run.words[0], damage.place))
        if found is None:
            raise ValueError("trees.txt lacks its tree")
        return found

    def stale(self, runs):
        """What is stored of no run of the table, of a token that is not read, or needlessly."""
        by_name = {(run.case, run.words): run for run in runs}
        for key, lines in self.refusals.items():
            if key not in by_name:
                yield f"refusals.txt: no run {key}"
            elif lines.reads == tokens_read(by_name[key]):
                yield f"refusals.txt: {key}: `reads` is needless"
            elif any(place >= self.tokens_read(by_name[key]) for place, _ in lines.answers):
                yield f"refusals.txt: {key}: a token that is not read"
            elif lines.ended is not None and not self.lacks_ended(by_name[key], lines.ended):
                yield f"refusals.txt: {key}: `ended` is needless, or cannot be"
        entries = {(run.case, run.words[0]): run for run in runs}
        for case, entry, place in self.trees:
            run = entries.get((case, entry))
            if run is None or place >= len(run.lines) - 1:
                yield f"trees.txt: no place {case}, {entry}, {place + 1}"


@functools.cache
def of_table():
    """What is stored for the runs of the table of cases."""
    return Stored(list_runs(), read_refusals(), read_trees())


def list_runs():
    """The runs of the table of cases whose lists can be read."""
    return [run for run in table.all_runs() if run.status != 2]
