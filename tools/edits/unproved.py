"""What a check did not prove: of each function the goals, worked rows, and laws."""

import re

from changed import item_at

FUNCTION = re.compile(r"^fn (\S+): (?:not proved|no proof)(.*)$", re.MULTILINE)
IN_CODE = re.compile(r"^note: (?:\./)?(src/\S+?):(\d+):\d+: .*?\(`([^`]*)`", re.MULTILINE)
BY_HAND = re.compile(r"^(?:note: )?(?:\./)?proofs/(\S+)\.antt:\S+ error: (?:`([^`]*)`)?", re.MULTILINE)
ROWS = re.compile(r"LinesOf|RowsOf|Worked|\w+RowLemmas$")
LAWS = ("Beginnings", "Chains", "Numbers", "Orders", "Positions", "Shapes", "Tidies", "Uses", "Watches")


def function_at(path, line):
    """Answers the name of the function around a line of a file of code, or nothing."""
    lines = path.read_text(encoding="utf-8").splitlines()
    head = re.search(r"\bfn (\w+)", item_at(lines, line - 1)[0])
    return head.group(1) if head else ""


def goals(printed, home):
    """Answers of each function what was not proved of it itself, goal by goal, as a check of the crate in this folder
    printed it. A goal with `*` has a proof by hand."""
    found = {}
    for path, said in FUNCTION.findall(printed):
        if not said.startswith(": it calls "):
            named = re.findall(r"`([^`]*)`", said.partition("did not prove ")[2])
            its = found.setdefault(path.split("::")[-1], {})
            its.update(dict.fromkeys([goal for goal in named if "::" not in goal], ""))
    for file, line, goal in IN_CODE.findall(printed):
        found.setdefault(function_at(home / file, int(line)), {})[goal] = ""
    for file, goal in BY_HAND.findall(printed):
        if goal and file.endswith(("/Answers", "/Invariants", "/Proof")):
            found.setdefault(file.split("/")[-2], {})[goal] = "*"
    return {name: [goal + hand for goal, hand in its.items()] for name, its in found.items()}


def rows_and_laws(printed):
    """Answers which worked rows and which tables of laws were not proved."""
    found = []
    for line in printed.splitlines():
        named = BY_HAND.match(line)
        if named and " depends on " not in line and " depend on " not in line:
            name = named.group(1)
            found += [f"the rows {name}"] if ROWS.match(name) else []
            found += [f"the law of {law.lower()}, proofs/{name}" for law in LAWS if name.startswith(law)]
    return list(dict.fromkeys(found))


def lines_of(printed, home):
    """Answers what was not proved, in lines: those of functions, of rows and laws, or else of the first note."""
    found = [f"{name}: {', '.join(its)}" for name, its in goals(printed, home).items() if its]
    found += rows_and_laws(printed)
    notes = [it for it in printed.splitlines() if re.match(r"(note: )?(\./)?(src|proofs|specs)/\S+:\d+:\d+:", it)]
    return found or [note[:150].replace("\t", " ") for note in notes[:1]] or ["not proved"]
