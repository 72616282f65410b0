"""The program with inputs and outputs that fail, and with long and bad input."""

import pathlib
import resource
import subprocess
import tempfile

import refused
from table import Run

ROOT = pathlib.Path(__file__).parent.parent.parent
MEGABYTE = 1 << 20


def ran(command, text=b""):
    """What the program prints, and its status."""
    done = subprocess.run(command, input=text, stdout=subprocess.PIPE)
    return done.stdout, done.returncode


def in_shell(program, redirections):
    """The same with standard input and output as the shell redirects them."""
    return ran(["sh", "-c", f'"$0" expr {redirections}', program])


def unreadable(line):
    return b"unreadable line %d\n" % line, 2


def failing_streams(program, list_file):
    """Standard input that is closed or no file, and standard output that is closed, full, or read by nobody."""
    yield "closed input", in_shell(program, "<&-"), unreadable(1)
    yield "a directory as input", in_shell(program, "</"), unreadable(1)
    yield "closed output", in_shell(program, f"<{list_file} >&-"), (b"", 2)
    yield "full output", in_shell(program, f"<{list_file} >/dev/full"), (b"", 2)
    unread = f'{{ {{ sleep 1; "$0" expr <{list_file}; echo $? >&3; }} | true; }} 3>&1'
    yield "output that nobody reads", ran(["sh", "-c", unread, program]), (b"2\n", 0)


def written(program, text, room):
    """What the program writes to a file that has room for so many bytes, and its status."""

    def limit_file():
        resource.setrlimit(resource.RLIMIT_FSIZE, (room, room))

    with tempfile.TemporaryFile() as file:
        # (Python ignores the signal of a file that is too long, and so does the program)
        how = {"stdout": file, "preexec_fn": limit_file, "restore_signals": False}
        status = subprocess.run([program, "expr"], input=text, **how).returncode
        file.seek(0)
        return file.read(), status


def failing_writes(program, text, answer):
    for room in range(len(answer) + 1):
        wanted = answer[:room], 2 if room < len(answer) else 0
        yield f"room for {room} bytes", written(program, text, room), wanted


def bad_bytes(program, text):
    """Each byte in turn replaced by one that is in no UTF-8."""
    for place in range(len(text)):
        line = 1 + text[:place].count(b"\n")
        bad = text[:place] + b"\xff" + text[place + 1 :]
        yield f"byte {place} is bad", ran([program, "expr"], bad), unreadable(line)


def long_lines(program):
    """Lines of a megabyte and more."""
    last = b"\n1:2 eof\n"
    for kind, node in ((b"str", b"Str 1:1 %b"), (b"id", b"Variable 1:1 - %b -")):
        text = b"a" * MEGABYTE
        tree = b"accepted\nExpr\n  " + node % text + b"\nfunctions 0\n"
        yield f"a long {kind.decode()}", ran([program, "expr"], b"1:1 %b " % kind + text + last), (tree, 0)
    tree = b"accepted\nExpr\n  Int 1:1 7\nfunctions 0\n"
    yield "zeros", ran([program, "expr"], b"1:1 int " + b"0" * MEGABYTE + b"7" + last), (tree, 0)
    yield "digits", ran([program, "expr"], b"1:1 int " + b"7" * MEGABYTE + last), unreadable(1)
    yield "no kind", ran([program, "expr"], b"1:1 int 1\n" + b"x" * MEGABYTE), unreadable(2)


def thousand_tokens():
    """A list of 1,000 tokens: names with a sign between two, and a semicolon."""
    tokens = [f"id x{number // 2}" if number % 2 == 0 else "sym +" for number in range(999)]
    lines = [f"1:{column} {token}" for column, token in enumerate([*tokens, "sym ;", "eof"], 1)]
    return "".join(f"{line}\n" for line in lines).encode()


def tree_of_thousand_tokens():
    """What is printed of them: each sign has all to its left as its first operand."""
    signs = [f"{'  ' * (500 - sign)}FnCall 1:{2 * sign} + - 2 -" for sign in range(499, 0, -1)]
    names = [f"{'  ' * (501 - max(name, 1))}Variable 1:{2 * name + 1} - x{name} -" for name in range(500)]
    return "".join(f"{line}\n" for line in ["accepted", "Expr", *signs, *names, "functions 0"]).encode()


def refused_in_a_long_list(program):
    """Refuses each request for memory over 1,000 tokens. The result is what is wrong, and how many were refused."""
    words = ("script", "expr_depth=0")
    run = Run("1,000 tokens", thousand_tokens(), words, tree_of_thousand_tokens())
    [wrong], requests = refused.check_runs(program, [run])
    return wrong, requests


def check(program):
    """What is wrong with each of these runs, or nothing."""
    list_file = ROOT / "examples" / "sum.tokens"
    text, answer = list_file.read_bytes(), (ROOT / "crates" / "rhai_parse" / "stdout").read_bytes()
    runs = [("an empty list", ran([program, "expr"]), unreadable(1)), *failing_streams(program, list_file)]
    runs += [*failing_writes(program, text, answer), *bad_bytes(program, text), *long_lines(program)]
    return [None if found == wanted else f"{name}: {found}, wanted {wanted}"[:500] for name, found, wanted in runs]
