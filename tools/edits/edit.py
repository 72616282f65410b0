"""An edit: what it changes, in which crate. An edit has lines `file: F`, pairs of lines `old: TEXT`,
`new: TEXT`, and perhaps after such a pair `# right: TEXT`: the new text without the mistake."""

import pathlib

ROOT = pathlib.Path(__file__).resolve().parent.parent.parent
EDITS = ROOT / "tests/edits"
CRATES = ROOT / "crates"


def changes(edit, right=False):
    """Yields what an edit changes: the file, the old text, and the new one; or the right one where there is one."""
    file = old = None
    pairs = []
    for line in edit.read_text(encoding="utf-8").splitlines():
        word, _, text = line.partition(":")
        text = text.removeprefix(" ")
        if word == "file":
            file = text
        elif word == "old":
            old = text
        elif word == "new":
            pairs.append((file, old, text))
        elif word == "# right" and right:
            pairs[-1] = (file, old, text)
    return pairs


def has_right(edit):
    """Answers whether an edit says what the right body would be."""
    return changes(edit) != changes(edit, right=True)


def crate_of(edit):
    """Answers the name of the crate that an edit changes."""
    return edit.parent.name if edit.parent.parent == EDITS else edit.parent.parent.name


def name_of(edit):
    """Answers an edit as the tables name it."""
    return str(edit.relative_to(EDITS))


def every():
    """Answers all edits of this folder."""
    return sorted(EDITS.glob("*/*.edit"))


def of_the_gate():
    """Answers the edits that the gate tries."""
    return sorted(CRATES.glob("*/must-fail/*.edit"))


def fault(edit):
    """Answers why an edit cannot be applied, or nothing."""
    texts = {}
    for file, old, new in changes(edit):
        path = CRATES / crate_of(edit) / file
        if path not in texts:
            texts[path] = path.read_text(encoding="utf-8") if path.is_file() else ""
        if texts[path].count(old) != 1:
            return f"its old text stands {texts[path].count(old)} times in {file}"
        texts[path] = texts[path].replace(old, new)
    return ""
