"""Scripts: those that are refused, examples, and random ones."""

import pathlib
import random

ROOT = pathlib.Path(__file__).resolve().parent.parent.parent
CASES = ROOT / "tests/diagnostics"

# What random texts are made of, beside the texts of the cases.
PIECES = "{ } ( ) [ ] #{ ; , . :: : => = == + - * || | & ! .. ..= ?? ?. ?[ let const fn if else switch for while loop "
PIECES += "do until in return throw try catch import export as private break continue a b f this eval 1 0xf 'c' \"s\" "
PIECES += "`t` `${ }` \" ' /* */ // === ~ \\ é 日 \t \n \r\n"


def options_of(case):
    """Answers the options of a case."""
    file = case.with_suffix(".args")
    return file.read_text(encoding="utf-8").split() if file.is_file() else []


def examples():
    """Answers the files of the examples."""
    return sorted((ROOT / "examples").glob("*.rhai"))


def random_texts(count):
    """Answers random texts: of pieces, and of cases with some characters changed."""
    chance = random.Random(1)
    scripts = [file.read_bytes().decode("utf-8") for file in sorted(CASES.glob("*.rhai"))]
    scripts += [file.read_text(encoding="utf-8") for file in examples()]
    pieces = PIECES.split(" ")
    for _ in range(count):
        if chance.random() < 0.5:
            yield " ".join(chance.choice(pieces) for _ in range(chance.randrange(1, 40)))
            continue
        text = list(chance.choice(scripts))
        for _ in range(chance.randrange(1, 4)):
            at = chance.randrange(len(text) + 1)
            text[at : at + chance.randrange(3)] = chance.choice(pieces)
        yield "".join(text)
