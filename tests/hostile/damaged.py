"""Each place of each list of the table damaged: an error of the tokenizer in place of each token, the list cut before
each token, and each string marked or unmarked as text."""

from typing import NamedTuple

from due import due
from table import NO_MEMORY

ERRORS = ("memory", "unterminated", "toolong 7", "number 1x", "improper =>", "unexpected §")
MARKED = {"str": "tstr", "istr": "tistr", "tstr": "str", "tistr": "istr"}
BY_RULE, STORED, SAME_LIST, TREE = "by a rule", "in refusals.txt", "by the table of cases", "in trees.txt"


class Damage(NamedTuple):
    place: int  # of the token
    what: str  # an error, `cut` or `mark`
    lines: list

    @property
    def list(self):
        return "".join(f"{line}\n" for line in self.lines).encode()

    @property
    def unmarks(self):
        """Whether a string loses its mark."""
        return self.what == "mark" and self.lines[self.place].split(" ")[1] in ("str", "istr")

    @property
    def kind(self):
        """How refusals.txt calls it. A string that is marked is as an error."""
        if self.unmarks:
            return "unmarked"
        return "cut" if self.what == "cut" else "errors"


def damages(lines):
    """All damaged forms of a list."""
    for place, line in enumerate(lines[:-1]):
        position, kind, *text = line.split(" ", 2)
        before, after = lines[:place], lines[place + 1 :]
        for error in ERRORS:
            yield Damage(place, error, [*before, f"{position} err {error}", *after])
        yield Damage(place, "cut", [*before, f"{position} eof"])
        if kind in MARKED:
            yield Damage(place, "mark", [*before, " ".join([position, MARKED[kind], *text]), *after])


def tokens_read(run):
    """How many tokens a run reads, where refusals.txt says nothing: all of them where it is accepted, else those up to
    the first one at the position of the refusal, and all of them if that is the end mark's."""
    if run.first == "accepted":
        return len(run.lines) - 1
    wanted = " err memory" if run.first == NO_MEMORY else f"{run.first.split(' ')[2]} "
    for place, line in enumerate(run.lines[:-1]):
        if line.endswith(wanted) or line.startswith(wanted):
            return place + 1
    return len(run.lines) - 1


def by_rule(run, damage):
    """The first line of the answer to a list that is damaged at a token that is read, if no test fails before. Nothing
    for a string in code mode that loses its mark: no rule gives its answer."""
    if damage.what == "memory":
        return NO_MEMORY
    if damage.what != "mark":
        return due(damage.lines, run.words).answer
    position, _, *text = damage.lines[damage.place].split(" ", 2)
    error = " ".join([position, "err", "unexpected", *text])
    met = due([*damage.lines[: damage.place], error], run.words)
    if met.in_text:
        return run.first
    return None if damage.unmarks else met.answer


class Wanted(NamedTuple):
    """The answer that a damaged list has to get."""

    source: str  # what says so
    answer: str  # the whole answer, or `accepted` and the checksum of the whole


def wanted(run, damage, stored):
    """The answer to a damaged list, by the rules, the table of cases, and what is stored."""
    if damage.place >= stored.tokens_read(run):
        return Wanted(BY_RULE, run.answer.decode())
    first, line = by_rule(run, damage), stored.answer(run, damage)
    if line is not None:
        if line == first:
            raise ValueError(f"{line!r} is needless in refusals.txt")
        return Wanted(STORED, line if line.startswith("accepted ") else f"{line}\n")
    if first is None:
        raise ValueError("refusals.txt lacks its answer")
    if damage.what == "mark" and first == run.first:
        return Wanted(BY_RULE, run.answer.decode())
    return wanted_tree(run, damage, stored) if first == "accepted" else Wanted(BY_RULE, f"{first}\n")


def wanted_tree(run, damage, stored):
    """The answer to a list that is cut and accepted."""
    same = stored.same_list(run, damage)
    if same is not None:
        return Wanted(SAME_LIST, same)
    return Wanted(TREE, f"accepted {stored.checksum(run, damage)}")


def is_answer(answer, text, checksum):
    """Whether the whole answer and the status are these."""
    is_accepted = text.startswith("accepted")
    if answer.status != (0 if is_accepted else 1):
        return False
    if text.startswith("accepted "):
        return answer.first == "accepted" and text == f"accepted {checksum(answer.printed)}"
    return answer.printed == text.encode()


class Counts(NamedTuple):
    """How many damaged lists there were, by what gives their answers, and what is wrong with them."""

    of: dict
    wrong: list


def check(run, found, stored):
    """Checks the answers to all damaged forms of the list of a run."""
    counts = Counts({}, [])
    for damage, answer in found:
        place = f"{run.name}: {damage.what} at token {damage.place + 1}"
        try:
            source, text = wanted(run, damage, stored)
        except (ValueError, KeyError) as error:
            counts.wrong.append(f"{place}: {error}")
            continue
        counts.of[source] = counts.of.get(source, 0) + 1
        if not is_answer(answer, text, stored.checksum_of):
            counts.wrong.append(f"{place}: status {answer.status}, {answer.first}, wanted {text[:200]}")
    return counts


def answers(program, runs):
    """Yields each of these runs, all with the same words, with its damaged lists and the answers to these."""
    forms = [list(damages(run.lines)) for run in runs]
    lists = [damage.list for form in forms for damage in form]
    found = iter(program.answers(runs[0].words, lists))
    for run, form in zip(runs, forms):
        yield run, [(damage, next(found)) for damage in form]


def check_runs(program, runs, stored):
    """Checks runs with the same words."""
    return [check(run, found, stored) for run, found in answers(program, runs)]
