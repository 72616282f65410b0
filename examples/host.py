#!/usr/bin/env python3
"""A host in Python: prints the parameters and variables of each function of a script.

usage: host.py LIBRARY FILE

LIBRARY is librhai_c with include/rhai_parser.c as a shared library (tests/hosts.sh makes one). The status is 1 if the
script is refused.
"""

import ctypes
import json
import sys

OK, REFUSED, NOT_UTF8, NO_MEMORY, BAD_ARGUMENT = range(5)


class Engine(ctypes.Structure):
    """The rhai_engine of include/rhai_parser.h."""

    _fields_ = [("held", ctypes.c_void_p)]


class Answer(ctypes.Structure):
    """The rhai_answer of include/rhai_parser.h."""

    _fields_ = [("held", ctypes.c_void_p), ("text", ctypes.c_void_p), ("length", ctypes.c_size_t)]


class Parser:
    """An engine of a library, to be used in a `with`."""

    def __init__(self, path):
        self.library = ctypes.CDLL(path)
        self.engine = Engine()

    def __enter__(self):
        self.call("rhai_engine_new")
        return self

    def __exit__(self, *_):
        self.library.rhai_engine_free(ctypes.byref(self.engine))

    def call(self, name, *rest):
        """Makes a call with the engine, and raises an error for any status but OK and REFUSED."""
        status = getattr(self.library, name)(ctypes.byref(self.engine), *rest)
        if status not in (OK, REFUSED):
            raise RuntimeError(f"{name}: status {status}")
        return status

    def set(self, option, value):
        """Gives an option, by its number, a value."""
        self.call("rhai_engine_set", ctypes.c_uint32(option), ctypes.c_size_t(value))

    def ask(self, name, text, *rest):
        """Answers the status, and what a call says of a text, which is bytes."""
        answer = Answer()
        try:
            status = self.call(name, text, ctypes.c_size_t(len(text)), *rest, ctypes.byref(answer))
            return status, json.loads(ctypes.string_at(answer.text, answer.length))
        finally:
            self.library.rhai_free(ctypes.byref(answer))

    def parse(self, text):
        """Answers the status, and the tree or the diagnostic of a script."""
        return self.ask("rhai_parse", text, ctypes.c_uint32(0))


def variables(part):
    """Answers the names that a part of a tree defines, in written order."""
    names, left = [], [part]
    while left:
        part = left.pop()
        if isinstance(part, dict):
            if part.get("kind") in ("Var", "For"):
                names += [part[key] for key in ("name", "counter") if part.get(key)]
            part = list(part.values())
        if isinstance(part, list):
            left += reversed(part)
    return names


def main():
    with open(sys.argv[2], "rb") as file:
        text = file.read()
    with Parser(sys.argv[1]) as parser:
        status, answer = parser.parse(text)
    if status == REFUSED:
        print(f"{answer['line']}:{answer['column']}: {answer['message']}")
        return 1
    for function in answer["functions"]:
        names = variables(function["body"])
        print(f"{function['name']}({', '.join(function['params'])}): {', '.join(names) or '-'}")
    return 0


if __name__ == "__main__":
    sys.exit(main())
