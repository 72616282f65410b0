"""The table of cases (tests/cases/README.md): its lists, and their runs with the answers."""

import pathlib
import re
from typing import NamedTuple

CASES = pathlib.Path(__file__).parent.parent / "cases"
NO_MEMORY = "refused E36 none OutOfMemory"
ESCAPES = {b"n": b"\n", b"r": b"\r", b"t": b"\t", b"\\": b"\\"}


class Run(NamedTuple):
    """A run of the program over a list, and what it prints."""

    case: str
    list: bytes
    words: tuple
    answer: bytes

    @property
    def name(self):
        return f"{self.case}: {' '.join(self.words)}"

    @property
    def first(self):
        """The first line of the answer."""
        return self.answer.decode().split("\n")[0]

    @property
    def status(self):
        return {"refused": 1, "unreadable": 2}.get(self.first.split(" ")[0], 0)

    @property
    def lines(self):
        return self.list.decode().removesuffix("\n").split("\n")


def unescaped(line):
    """What `printf %b` makes of a line."""

    def one(match):
        return ESCAPES.get(match[1]) or bytes([int(match[1][1:], 16)])

    return re.sub(rb"\\([nrt\\]|x[0-9a-f]{2})", one, line)


def runs_of_case(file, text):
    """The runs of a case, which is the text after its `== `."""
    title, *rest = text.split(b"\n")
    case = f"{file}: {title.decode()}"
    tokens, words, answer, runs = b"", [], b"", []
    for line in [*rest, b"$"]:
        if line.startswith(b"$"):
            if answer:
                runs += [Run(case, tokens, tuple(it.decode().split()), answer) for it in words]
                words, answer = [], b""
            words.append(line[1:])
        elif not line or line.startswith(b"#"):
            continue
        elif words:
            answer += unescaped(line[2:]) if line.startswith(b"% ") else line + b"\n"
        elif line.startswith(b"% "):
            tokens += unescaped(line[2:])
        else:
            tokens += line.replace(b"  ", b"\n") + b"\n"
    return runs


def all_runs(folder=CASES):
    """All runs of the table, or of another folder of cases, in its order."""
    runs = []
    for path in sorted(folder.glob("*.txt")):
        for case in (b"\n" + path.read_bytes()).split(b"\n== ")[1:]:
            runs += runs_of_case(path.name, case)
    return runs
