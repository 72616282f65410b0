"""Runs of a program over many lists in one process (forks.c)."""

import os
import pathlib
import re
import resource
import subprocess
from typing import NamedTuple

SOURCE = pathlib.Path(__file__).parent / "forks.c"
END = re.compile(rb"^= (\d+)( refused)?\n", re.MULTILINE)
CPU_SECONDS = 60  # for each run


class Answer(NamedTuple):
    printed: bytes
    status: int
    was_refused: bool  # whether a request for memory was

    @property
    def text(self):
        return self.printed.decode(errors="replace")

    @property
    def first(self):
        return self.text.split("\n")[0]


def compile_forks(folder):
    """Compiles forks.c to a file in this folder, which is returned."""
    library = f"{folder}/forks.so"
    command = [os.environ.get("CC", "cc"), "-shared", "-fPIC", "-O2", "-o", library, str(SOURCE)]
    subprocess.run(command, check=True)
    return library


def set_limits():
    resource.setrlimit(resource.RLIMIT_CPU, (CPU_SECONDS, CPU_SECONDS))
    resource.setrlimit(resource.RLIMIT_CORE, (0, 0))


class Program(NamedTuple):
    """A program that is run so. `more` are words after those of a run."""

    library: str  # what compile_forks returned
    path: str
    more: tuple = ()

    def answers(self, words, lists, refuse=False):
        """The answers to these lists, in order; for `refuse` those to each list again and again, until no request was
        refused."""
        command = [self.path, *words, *self.more]
        batch = b"".join(b"%d\n" % len(it) + it for it in lists)
        environment = {"LD_PRELOAD": self.library, **({"REFUSE": "1"} if refuse else {})}
        output = {"stdout": subprocess.PIPE, "stderr": subprocess.DEVNULL}
        ran = subprocess.run(command, input=batch, env=environment, preexec_fn=set_limits, **output)
        begin, found = 0, []
        for end in END.finditer(ran.stdout):
            found.append(Answer(ran.stdout[begin : end.start()], int(end[1]), bool(end[2])))
            begin = end.end()
        if ran.returncode or sum(not it.was_refused for it in found) != len(lists):
            said = f"after {len(found)} answers to {len(lists)} lists"
            raise RuntimeError(f"{command} ended with {ran.returncode}, {said}")
        return found
