#!/usr/bin/env python3
"""Prints two tables of what a token costs, in scripts of one kind each. It is no part of the gate.

usage: tools/speed.py [PROGRAM [OTHER CALL]]

The first table has the instructions a token that the reader of a script's statements takes, which is almost all of the
parse call, in a list of 10,000 tokens, which is accepted. valgrind's callgrind counts them, the same on every run. With
OTHER, a program that takes the same words and lists, it also has those of that program's function whose name has CALL
in it, and how many times as many PROGRAM takes.

The second one has the nanoseconds a token that a whole run takes, in lists of 10,000, 100,000 and 1,000,000 tokens: the
shortest of several runs. Each list ends with one token too many, so that no tree is printed. The exit status is 1 if a
token of the longest list of a kind costs more than twice as much as one of the shortest.

Without PROGRAM it is the one in crates/rhai_parse/out, which `rt run` in crates/rhai_parse built last.
"""

import pathlib
import re
import subprocess
import sys
import tempfile
import time

ROOT = pathlib.Path(__file__).resolve().parent.parent
PROGRAM = ROOT / "crates/rhai_parse/out/rhai_parse"
WORDS = ["script", "expr_depth=0", "fn_depth=0", "functions=10000000"]

# The tokens of a script: names are of letters and digits, integers of digits, texts stand in quotes, `interpolated`
# begins a string with a block, `text` ends it, and all else is a symbol.
WORD = re.compile(r"[a-z]\w*")
SYMBOLS = {"let", "fn", "if", "else", "switch", "import", "as", "for", "in", "while", "loop", "break"}


def line(token):
    if token in SYMBOLS:
        return f"sym {token}"
    if token.startswith('"'):
        return f"str {token[1:-1]}"
    if token in ("interpolated", "text"):
        return "istr a" if token == "interpolated" else "tstr b"
    if token.isdigit():
        return f"int {token}"
    return f"id {token}" if WORD.fullmatch(token) else f"sym {token}"


# A kind of script: what it begins with, its parts by their number, and what it ends with.
KINDS = {
    "statements": ("let v = 1 ;", lambda n: "v = v + 1 ;", ""),
    "definitions": ("let v0 = 1 ;", lambda n: f"let v{n + 1} = v{n} + 1 ;", ""),
    "uses": ("let v = 1 ;" + "".join(f" let w{n} = 1 ;" for n in range(1000)), lambda n: f"v + w{n % 1000} ;", ""),
    "operators": ("x", lambda n: f"+ f ( y , {n} ) * 2 - x . y [ 1 ]", ";"),
    "arrays": ("[", lambda n: f'{n} , x , "a{n % 100}" ,', "] ;"),
    "maps": ("#{", lambda n: f"k{n} : {n} ,", "} ;"),
    "blocks": ("", lambda n: "{ " * 20 + "let x = 1 ; x" + " }" * 20, ""),
    "conditions": ("", lambda n: "if x { y = 1 } else { z }", ""),
    "loops": ("", lambda n: "for ( x , i ) in y { while i { loop { break } } }", ""),
    "functions": ("", lambda n: f"fn f{n} ( a , b ) {{ a + b }}", ""),
    "parameters": ("fn f (", lambda n: f"p{n} ,", ") { }"),
    "closures": ("let x = 1 ;", lambda n: "x = | a | a + x ;", ""),
    "integer cases": ("switch x {", lambda n: f"{n} => 1 ,", "}"),
    "text cases": ("switch x {", lambda n: f'"a{n}" => 1 ,', "}"),
    "array and map cases": ("switch x {", lambda n: f"#{{ a : {n} , b : [ {n} , 0 ] }} => 1 ,", "}"),
    "imports": ("", lambda n: f'import "a" as m{n} ; m{n} :: x ;', ""),
    "strings": ("", lambda n: "x = interpolated { y } text ;", ""),
}


def write_list(kind, count, path, extra=()):
    """Writes a list of about this many tokens, and of these extra ones at its end, and returns how many there are."""
    begin, part, end = KINDS[kind]
    tokens = begin.split()
    number = 0
    while len(tokens) < count:
        tokens += part(number).split()
        number += 1
    tokens += [*end.split(), *extra]
    lines = [f"{n // 1000 + 1}:{n % 1000 + 1} {line(token)}\n" for n, token in enumerate(tokens)]
    path.write_text("".join(lines) + f"{len(tokens) // 1000 + 1}:{len(tokens) % 1000 + 1} eof\n")
    return len(tokens)


def run(command, path, due):
    with open(path, "rb") as tokens:
        answer = subprocess.run(command, stdin=tokens, stdout=subprocess.PIPE, stderr=subprocess.DEVNULL).stdout
    if not answer.startswith(due):
        sys.exit(f"{command[0]} answers {answer[:200]!r}")


def instructions(program, call, path, folder):
    """How many instructions the function takes whose name has this text in it, with those that it calls."""
    counts = folder / "counts"
    run(["valgrind", "--tool=callgrind", f"--callgrind-out-file={counts}", program, *WORDS], path, b"accepted")
    table = subprocess.run(
        ["callgrind_annotate", "--inclusive=yes", "--threshold=100", counts], capture_output=True, text=True
    ).stdout
    # Calls of a function inside itself have a row of their own, with a mark after its name.
    rows = (row for row in table.splitlines() if call in row and "[" in row and "'" not in row)
    row = next(rows, None)
    return int(row.split()[0].replace(",", "")) if row else sys.exit(f"{program} has no function {call}")


def nanoseconds(program, path, runs):
    def once():
        begin = time.perf_counter_ns()
        run([program, *WORDS], path, b"refused E2 ")
        return time.perf_counter_ns() - begin

    return min(once() for _ in range(runs))


def print_instructions(programs, folder):
    print(f"{'instructions a token':22}" + "".join(f"{pathlib.Path(program).name:>12}" for program, _ in programs))
    for kind in KINDS:
        path = folder / "list"
        count = write_list(kind, 10_000, path)
        found = [instructions(program, call, path, folder) for program, call in programs]
        times = f"{found[0] / found[1]:10.2f}" if len(found) > 1 else ""
        print(f"{kind:22}" + "".join(f"{it / count:12.0f}" for it in found) + times, flush=True)


def print_growth(program, folder):
    print(f"{'nanoseconds a token':22}" + "".join(f"{tokens:>12,}" for tokens in (10_000, 100_000, 1_000_000)))
    grown = []
    for kind in KINDS:
        costs = []
        for tokens, runs in ((10_000, 11), (100_000, 5), (1_000_000, 2)):
            path = folder / "list"
            count = write_list(kind, tokens, path, extra=[")"])
            costs.append(nanoseconds(program, path, runs) / count)
        if costs[2] > 2 * costs[0]:
            grown.append(kind)
        print(f"{kind:22}" + "".join(f"{cost:12.0f}" for cost in costs) + f"{costs[2] / costs[0]:10.2f}", flush=True)
    return grown


def main(program=PROGRAM, other=None, call=None):
    programs = [(program, "Reader::parse_statements")] + ([(other, call)] if other else [])
    with tempfile.TemporaryDirectory() as name:
        folder = pathlib.Path(name)
        print_instructions(programs, folder)
        print()
        grown = print_growth(program, folder)
    for kind in grown:
        print(f"a token costs more the longer the list is: {kind}")
    return 1 if grown else 0


if __name__ == "__main__":
    if len(sys.argv) not in (1, 2, 4):
        sys.exit(__doc__)
    sys.exit(main(*sys.argv[1:]))
