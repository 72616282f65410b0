"""Texts of lists of tokens, as far as a list is the tokens of some text, and the lists of the table that have one."""

import re

PLACE = re.compile(r"(?:(\d+):(\d+)|none) (.*)")
ESCAPE = re.compile(r"\\([sne\\])")
QUOTED = {"\\": "\\\\", '"': '\\"', "\n": "\\n", "\r": "\\r"}


class NoText(Exception):
    """A token that no text has."""


def unescaped(payload):
    """The text that a payload stands for."""
    return ESCAPE.sub(lambda it: {"s": " ", "n": "\n", "e": "", "\\": "\\"}[it[1]], payload)


def quoted(text):
    return '"' + "".join(QUOTED.get(it, it) for it in text) + '"'


def character(code):
    text = chr(int(code))
    return "'" + {"'": "\\'", "\\": "\\\\", "\n": "\\n", "\r": "\\r"}.get(text, text) + "'"


def ticked(text):
    """The letters of a text between back-ticks."""
    if "\r\n" in text or "${" in text:
        raise NoText(text)
    return text.replace("`", "``")


def letters(kind, payload):
    """How a token is written: its letters, and whether they go on from those of the token before."""
    match kind:
        case "int" | "id" | "res":
            return unescaped(payload), False
        case "sym":
            return {"u-": "-", "u+": "+"}.get(payload, unescaped(payload)), False
        case "char":
            return character(payload), False
        case "str":
            return quoted(unescaped(payload)), False
        case "istr":
            text = unescaped(payload)
            return "`" + ("\n" if text.startswith("\n") else "") + ticked(text) + "$", False
        case "tstr":
            return ticked(unescaped(payload)) + "`", True
        case "tistr":
            return ticked(unescaped(payload)) + "$", True
        case "doc":
            return unescaped(payload), False
        case "err":
            what, _, text = payload.partition(" ")
            if what in ("number", "improper", "unexpected"):
                return unescaped(text), False
            if what == "unterminated":
                return '"', False
    raise NoText(f"{kind} {payload}")


def placed(place, text, line, column):
    """What stands before a token at this place, after a text that ends at this line and column; nothing if no text can
    stand there so."""
    if not place[0]:
        return None
    to_line, to_column = int(place[0]), int(place[1])
    if to_line < line or to_line - line > 200 or to_column > 2000:
        return None
    if to_line > line:
        return "\n" * (to_line - line) + " " * (to_column - 1)
    return " " * (to_column - column) if to_column >= column else None


def text_of(lines, keep_places):
    """A text of a list of tokens, with its end mark. With `keep_places` each token stands where the list says, as far
    as it can; otherwise one blank stands between two. Raises `NoText` if a token has no text."""
    text, line, column, needs_line = "", 1, 1, False
    goes_on = True
    for entry in lines:
        found = PLACE.fullmatch(entry)
        if not found:
            raise NoText(entry)
        kind, _, payload = found[3].partition(" ")
        if kind == "eof":
            written, joins = "", False
        else:
            written, joins = letters(kind, payload)
        goes_on = goes_on or joins or text.endswith("$") and payload == "{" and kind == "sym"
        gap = placed((found[1], found[2]), text, line, column) if keep_places else None
        if gap is None:
            gap = "" if goes_on or kind == "eof" else " "
        if needs_line and "\n" not in gap and kind != "eof":
            gap = "\n" + gap
        text += gap + written
        line = text.count("\n") + 1
        column = len(text) - (text.rfind("\n") + 1) + 1
        needs_line = kind == "doc" and payload.startswith("//") or kind == "err" and payload == "unterminated"
        goes_on = False
    return text


def lists_of(runs):
    """The runs of each list that may have a text, by the list."""
    found = {}
    for run in runs:
        found.setdefault(run.list, []).append(run)
    return {it: same for it, same in found.items() if not any(run.first.startswith("unreadable") for run in same)}


def candidates(lists):
    """A list, and what may be its text."""
    for it in lists:
        try:
            yield it, text_of(it.decode().removesuffix("\n").split("\n"), True).encode()
        except (NoText, UnicodeError):
            pass


def with_text(tokens, lists):
    """The lists that have a text, each with it."""
    found = list(candidates(lists))
    answers = tokens.answers(("tokens", "--doc", "-"), [text for _, text in found])
    pairs = zip(found, answers)
    return [(it, text) for (it, text), answer in pairs if answer.printed.rstrip(b"\n") == it.rstrip(b"\n")]
