"""Wrong programs, which the tests have to find. Each is the program under test with some of its answers changed; the
tests have to complain of each list whose answer was changed."""

import re
from typing import NamedTuple

import damaged
import libraries
import refused
import stored
from batch import Answer

MANY = 12  # tokens, for the program that finds long lists hard


class Question(NamedTuple):
    """A list that a program is given."""

    program: object
    words: tuple
    list: bytes

    @property
    def lines(self):
        return self.list.decode(errors="replace").removesuffix("\n").split("\n")

    @property
    def place(self):
        """The position of the first token, as refusals have it."""
        return self.lines[0].split(" ")[0]

    def asked_with(self, error):
        """The answer to the list with this error in place of a lack of memory."""
        changed = self.list.replace(b" err memory\n", f" err {error}\n".encode())
        return self.program.answers(self.words, [changed])[0]


def refusal(text):
    return Answer(f"refused {text}\n".encode(), 1, False)


def right(_, answer):
    """Changes nothing."""
    return answer


def invalid_target_at_once(question, _):
    """Refuses each list at its first token as an invalid target of an assignment."""
    return refusal(f"E31 {question.place} AssignmentToInvalidLHS \\e")


def long_is_too_deep(question, answer):
    """Refuses each list of more than twelve tokens as too deep, at its first token."""
    return refusal(f"E34 {question.place} ExprTooDeep") if len(question.lines) > MANY else answer


def reads_on_after_a_missing_token(question, answer):
    """Reads on to the end mark before it refuses a missing token, and so meets a later lack of memory."""
    is_missing = answer.first.startswith("refused E7 ") and b" err memory\n" in question.list
    return refusal("E36 none OutOfMemory") if is_missing else answer


def memory_in_a_case_is_no_literal(question, answer):
    """Where memory runs out in a case of a `switch`, says that the case is no literal, as of any other error there."""
    if answer.first != damaged.NO_MEMORY or b" err memory\n" not in question.list:
        return answer
    other = question.asked_with("unterminated")
    return other if re.match("refused E8 .* literal$", other.first) else answer


def refused_request_is_no_literal(question, answer):
    """The same where a request for memory is refused in a list with a `switch`."""
    is_refused = answer.was_refused and b" sym switch\n" in question.list
    return refusal(f"E8 {question.place} ExprExpected literal") if is_refused else answer


def drops_what_is_named(_, answer):
    """Prints the kinds of refusals alone, without what they name."""
    words = answer.first.split(" ")
    return refusal(" ".join(words[1:4])) if words[0] == "refused" else answer


def error_of_the_tokenizer_first(question, answer):
    """Refuses an error of the tokenizer, also where a test or a raise for what stands before fails first."""
    errors = [line.split(" ", 2) for line in question.lines if " err " in line and not line.endswith(" memory")]
    if not errors or answer.status != 1:
        return answer
    position, _, error = errors[0]
    return refusal(f"E3 {position} BadInput {error}")


def accepts_without_a_tree(_, answer):
    """Prints no tree of what it accepts."""
    return answer._replace(printed=b"accepted\nfunctions 0\n") if answer.status == 0 else answer


def always_succeeds(_, answer):
    """Ends with status 0, also after a refusal."""
    return answer._replace(status=0)


def hides_refused_memory(question, answer):
    """Where a request for memory is refused, answers as if it had not been."""
    return question.program.answers(question.words, [question.list])[0] if answer.was_refused else answer


def without_functions(answer, last):
    """The answer to a refused list without the lines of the library, or without the last one."""
    lines = answer.text.split("\n")
    functions = [line for line in lines if line.startswith("fn ")]
    if not functions or not lines[0].startswith("refused "):
        return answer
    dropped = functions[-1:] if last else functions
    return answer._replace(printed="\n".join(line for line in lines if line not in dropped).encode())


def empties_the_library(_, answer):
    """Empties the library where it refuses."""
    return without_functions(answer, last=False)


def loses_the_last_function(_, answer):
    """Takes the function that ended last out of the library where it refuses."""
    return without_functions(answer, last=True)


OVER_DAMAGED_LISTS = [
    invalid_target_at_once,
    long_is_too_deep,
    reads_on_after_a_missing_token,
    memory_in_a_case_is_no_literal,
    drops_what_is_named,
    error_of_the_tokenizer_first,
    accepts_without_a_tree,
    always_succeeds,
]
WITH_MEMORY_REFUSED = [
    invalid_target_at_once,
    refused_request_is_no_literal,
    drops_what_is_named,
    always_succeeds,
    hides_refused_memory,
]
WITH_LIBRARIES = [empties_the_library, loses_the_last_function]


class Recorded:
    """A program that is asked once for each answer."""

    def __init__(self, program):
        self.program, self.known = program, {}

    def groups(self, words, lists, refuse):
        """The answers to each of these lists, together."""
        new = [it for it in dict.fromkeys(lists) if (words, it, refuse) not in self.known]
        found = iter(self.program.answers(words, new, refuse) if new else [])
        for one in new:
            answers = [next(found)]
            while answers[-1].was_refused:
                answers.append(next(found))
            self.known[words, one, refuse] = answers
        return [self.known[words, one, refuse] for one in lists]

    def answers(self, words, lists, refuse=False):
        return [answer for group in self.groups(words, lists, refuse) for answer in group]


class Wrong:
    """A program with changed answers. It counts the lists, one after the other, of which it changed an answer."""

    def __init__(self, recorded, change):
        self.recorded, self.change, self.changed = recorded, change, 0

    def changed_group(self, question, group):
        found = [self.change(question, answer)._replace(was_refused=answer.was_refused) for answer in group]
        self.changed += found != group
        return found

    def answers(self, words, lists, refuse=False):
        groups = self.recorded.groups(words, lists, refuse)
        questions = [Question(self.recorded, words, it) for it in lists]
        return [it for pair in zip(questions, groups) for it in self.changed_group(*pair)]


def complaints_of_damaged(program, runs):
    return sum(len(counts.wrong) for counts in damaged.check_runs(program, runs, stored.of_table()))


def complaints_of_refused(program, runs):
    return sum(complaint is not None for complaint in refused.check_runs(program, runs)[0])


def check(recorded, chunks, change, complaints):
    """What is wrong with the tests: with `change`, lists that this wrong program gets through, and without it, any that
    the program itself does not. `complaints` says of how many lists the tests complain."""
    program = Wrong(recorded, change)
    found = sum(complaints(program, runs) for runs in chunks)
    name = change.__name__
    if change is not right and program.changed == 0:
        return f"{name}: no list shows what is wrong with it"
    if found != program.changed:
        return f"{name}: complaints of {found} lists, and {program.changed} have a wrong answer"
    return None


def complaints_of_libraries(program, runs):
    found = [libraries.check_run(program, run, stored.of_table())[0] for run in runs]
    return sum(complaint is not None for complaints in found for complaint in complaints)


def check_all(program, chunks):
    """Yields what is wrong with the tests, or nothing, for each wrong program over these runs, and the right one."""
    recorded = Recorded(program)
    for changes, complaints in (
        (OVER_DAMAGED_LISTS, complaints_of_damaged),
        (WITH_MEMORY_REFUSED, complaints_of_refused),
    ):
        for change in (right, *changes):
            yield check(recorded, chunks, change, complaints)


def check_libraries(tests, runs):
    """The same for programs with the tests of the library."""
    recorded = Recorded(tests)
    for change in (right, *WITH_LIBRARIES):
        yield check(recorded, [runs], change, complaints_of_libraries)
