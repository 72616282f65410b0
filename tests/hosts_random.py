#!/usr/bin/env python3
"""Compares what the library for C answers on random scripts with what `rhai-ast` prints.

usage: tests/hosts_random.py LIBRARY [PROGRAM [COUNT]]

LIBRARY is librhai_c as a shared library, PROGRAM by default what `rt run` in crates/rhai_ast built, and COUNT the
number of scripts, by default 10,000. They are made of words of the language, whole scripts of examples/ with one byte
changed, and random bytes; always the same. The tree in JSON has to give the printed tree, and the diagnostic the
place and the message that are printed. The last line counts the scripts; the status is 1 if any answers differ.
"""

import pathlib
import random
import re
import subprocess
import sys

ROOT = pathlib.Path(__file__).resolve().parent.parent
sys.dont_write_bytecode = True
sys.path[:0] = [str(ROOT / "examples"), str(ROOT / "tests/hostile")]

import host
from printed import printed_tree

WORDS = """let const fn if else switch while loop do until for in break continue return throw try catch import export as
private this true false x y f g m 0 1 42 0x1f 'a' "s" `t` ( ) [ ] { } #{ , ; : :: . ?. ?[ = == != < > <= >= + - * / %
** << >> & | ^ && || ! ?? .. ..= => += -= |x| || () _ $ @ // /*""".split()

# Parts of which most lists are scripts.
PARTS = """let x = 1;
x += f(2);
fn f(a) { return a; }
private fn g() { f(1) }
if x { y } else { 1 }
while x < 3 { x += 1; }
[1, x];
#{a: 1}.a;
for (i, k) in 0..9 { }
switch x { 1 => 2, _ => 3 }
let h = |y| x + y;
`a${x}b`
/// doc
{ let y = x; }
try { f(1) } catch (e) { }
x.y[1]?.z;
import "m" as m;
m::f();
export x;
loop { break 1; }
!x && y ?? 2 ** 3;""".splitlines(keepends=True)


def scripts(count):
    """Answers this many scripts, as bytes; always the same."""
    numbers = random.Random(1)
    examples = [path.read_bytes() for path in sorted((ROOT / "examples").glob("*.rhai"))]
    for number in range(count):
        if number % 10 < 3:
            yield " ".join(numbers.choices(WORDS, k=numbers.randint(1, 12))).encode()
        elif number % 10 < 7:
            yield "".join(numbers.choices(PARTS, k=numbers.randint(1, 8))).encode()
        elif number % 10 < 9:
            text = bytearray(numbers.choice(examples))
            text[numbers.randrange(len(text))] = numbers.randrange(32, 127)
            yield bytes(text)
        else:
            yield numbers.randbytes(numbers.randint(0, 40))


# Reports show control characters by their pictures.
PICTURES = {code: 0x2400 + code for code in range(32)} | {127: 0x2421}


def message(refusal):
    """Answers the message of a refusal as reports show it."""
    return refusal["message"].translate(PICTURES)


def library_answer(parser, text):
    """Answers what the library says: the lines of a tree, the line of a refusal, or none if there is no answer."""
    try:
        status, answer = parser.parse(text)
    except RuntimeError:
        return []
    if status == host.OK:
        return printed_tree(answer)
    place = f"{answer['line']}:{answer['column']}" if answer["line"] else "none"
    return [f"{place} {message(answer)}"]


def program_answer(program, text):
    """Answers the same of what the program says."""
    run = subprocess.run([program, "tree", "--doc", "-"], input=text, capture_output=True, timeout=60)
    if run.returncode == 0:
        return run.stdout.decode().split("\n")[:-1]
    refusal = re.match(r"error: (.*?)\n *--> <stdin>:(\d+:\d+)\n", run.stderr.decode(errors="replace"), re.S)
    return [f"{refusal[2]} {refusal[1]}"] if run.returncode == 1 and refusal else []


def main():
    program = sys.argv[2] if len(sys.argv) > 2 else str(ROOT / "crates/rhai_ast/out/rhai_ast")
    count = int(sys.argv[3]) if len(sys.argv) > 3 else 10_000
    failed = 0
    with host.Parser(sys.argv[1]) as parser:
        for text in scripts(count):
            got, wanted = library_answer(parser, text), program_answer(program, text)
            if got != wanted:
                failed += 1
                print(f"failed: {text[:100]}: {str(got)[:200]} and {str(wanted)[:200]}")
    print(f"{count - failed} passed, {failed} failed")
    return failed > 0


if __name__ == "__main__":
    sys.exit(main())
