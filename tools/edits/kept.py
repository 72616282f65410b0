"""The tables of refused edits. refused.tsv has when each was refused, unproved.txt what was not proved then."""

from edit import EDITS

REFUSED = EDITS / "refused.tsv"
UNPROVED = EDITS / "unproved.txt"
HEADS = {
    REFUSED: "# edit, the commit at which it was refused last, the seconds that took, its sum with what it changes\n",
    UNPROVED: """\
# What was not proved of each edit: of each function its goals, each an exit and a clause.
# A goal with `*` has a proof by hand, which no longer holds. Where a line names no function, it is the first of what
# was not proved, or says which worked rows or laws.
""",
}


def read_refused():
    """Answers of each edit its commit, seconds and sum."""
    lines = REFUSED.read_text(encoding="utf-8").splitlines()
    return {row[0]: row[1:] for row in (line.split("\t") for line in lines if not line.startswith("#"))}


def read_unproved():
    """Answers of each edit the lines that say what was not proved."""
    found, name = {}, ""
    for line in UNPROVED.read_text(encoding="utf-8").splitlines():
        if line.startswith("    "):
            found[name].append(line.strip())
        elif not line.startswith("#"):
            found[name := line] = []
    return found


def write(refused, unproved):
    """Writes both tables."""
    lines = ["\t".join([edit, *refused[edit]]) + "\n" for edit in sorted(refused)]
    REFUSED.write_text(HEADS[REFUSED] + "".join(lines), encoding="utf-8")
    lines = [f"{edit}\n" + "".join(f"    {line}\n" for line in unproved[edit]) for edit in sorted(unproved)]
    UNPROVED.write_text(HEADS[UNPROVED] + "".join(lines), encoding="utf-8")


def keep(edit, row, unproved):
    """Keeps the row of an edit, and what was not proved."""
    write(read_refused() | {edit: row}, read_unproved() | {edit: unproved})
