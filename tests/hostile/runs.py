"""Runs of `rhai-ast` that are counted: what its tests share."""

import pathlib
import subprocess
import sys

from scripts import CASES

ROOT = pathlib.Path(__file__).resolve().parent.parent.parent
BUILT = ROOT / "crates/rhai_ast/out/rhai_ast"


class Runs:
    """The runs of a program, and how many failed."""

    def __init__(self, program):
        self.program = str(pathlib.Path(program).resolve())
        self.passed = 0
        self.failed = 0

    def run(self, *words, text=b"", folder=CASES):
        """Answers the status, and what is written to both outputs."""
        data = text if isinstance(text, bytes) else text.encode("utf-8")
        command = [self.program, *map(str, words)]
        run = subprocess.run(command, input=data, capture_output=True, cwd=folder, timeout=300)
        return run.returncode, run.stdout.decode("utf-8"), run.stderr.decode("utf-8")

    def check(self, title, good, told=""):
        """Counts a run, and prints it if it failed."""
        self.passed += bool(good)
        self.failed += not good
        if not good:
            print(f"failed: {title}: {told}")

    def expect(self, title, got, wanted):
        """Counts a run by its status and outputs."""
        told = [*map(str, got), "-- wanted:", *map(str, wanted)]
        self.check(title, got == wanted, "\n" + "\n".join(told))


def main(make):
    """Makes the runs of the program that the command line names, or of the one that `rt run` in crates/rhai_ast built
    last. Prints how many passed, and answers the exit status: 1 if any failed, or if there is no program."""
    program = sys.argv[1] if len(sys.argv) > 1 else BUILT
    if not pathlib.Path(program).is_file():
        print("no program is built: run `rt run` in crates/rhai_ast, or name one")
        return 1
    runs = Runs(program)
    make(runs)
    print(f"{runs.passed} passed, {runs.failed} failed")
    return 1 if runs.failed else 0
