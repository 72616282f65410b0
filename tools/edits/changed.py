"""What an edit changes, and a sum of that. It is a function, with the definitions that its contract names."""

import functools
import hashlib
import os
import re
import subprocess

from edit import ROOT, changes, crate_of

USE = re.compile(r"ghost use Rattle\.(\w+)\.specs\.([\w.]+?)\.\{([^}]*)\}")
DEFINITION = re.compile(r"(?:(?:unfoldable|abbrev|record|data|pub) )*([^\s:({]+)")
CONTRACT = re.compile(r"(?:ensures|requires)\*?\s*\w*\s*\{(.*?)\}\s*(?=ensures|requires|\{|$)", re.DOTALL)


def item_at(lines, at):
    """Answers the function around a line, or else the whole item: its lines."""
    heads = [n for n in range(at, -1, -1) if re.match(r"\s*(pub(\(\w+\))? )?(const )?fn ", lines[n])]
    head = heads[0] if heads else at
    indent = len(lines[head]) - len(lines[head].lstrip())
    end = next((n for n in range(head, len(lines)) if lines[n].rstrip() == " " * indent + "}"), len(lines) - 1)
    if end < at:
        head = next((n for n in range(at, -1, -1) if lines[n] and not lines[n][0].isspace()), 0)
        end = next((n for n in range(at, len(lines)) if lines[n].startswith("}")), len(lines) - 1)
    return lines[head : end + 1]


def paragraph_at(lines, at):
    """Answers the lines around a line up to the next empty ones: in specs/, a definition."""
    begin = next((n + 1 for n in range(at, -1, -1) if not lines[n]), 0)
    return lines[begin : next((n for n in range(at, len(lines)) if not lines[n]), len(lines))]


@functools.cache
def text_of(file, commit):
    """Answers the text of a file at a commit, or without one as it is now; it is empty where there is none."""
    if commit:
        ran = subprocess.run(["git", "show", f"{commit}:{file}"], cwd=ROOT, capture_output=True, text=True, check=False)
        return ran.stdout
    return (ROOT / file).read_text(encoding="utf-8") if (ROOT / file).is_file() else ""


def changed_item(file, old, commit):
    """Answers the item around a text in a file, as one string; it is empty where the text is not there."""
    lines = text_of(file, commit).splitlines()
    at = next((n for n, line in enumerate(lines) if old in line), None)
    around = item_at if file.endswith(".rt") else paragraph_at
    return "" if at is None else "\n".join(line.strip() for line in around(lines, at))


@functools.cache
def definitions(file, commit):
    """Answers the definitions in a file of specs/, by name."""
    found, name = {}, ""
    for line in text_of(file, commit).splitlines():
        if line and not line[0].isspace():
            word = DEFINITION.match(line)
            name = word.group(1) if word and not line.startswith(("--", "use ")) else ""
        if name:
            found[name] = found.get(name, "") + line.rstrip() + "\n"
    return {name: text.strip() for name, text in found.items()}


def cited(file, words, commit):
    """Answers the definitions of these words, as the ghost uses of a file of code give them."""
    found = {}
    for crate, module, names in USE.findall(text_of(file, commit)):
        defined = definitions(f"crates/{crate}/specs/{module.replace('.', '/')}.antt", commit)
        found |= {word: defined[word] for word in re.findall(r"[\w-]+", names) if word in words and word in defined}
    return found


def changed(edit, commit=None):
    """Yields what an edit changes: of each of its changes the file, the item, and the definitions that this names."""
    for file, old, _ in changes(edit):
        file = os.path.normpath(f"crates/{crate_of(edit)}/{file}")
        item = changed_item(file, old, commit)
        words = set(re.findall(r"[A-Za-z][\w-]*", " ".join(CONTRACT.findall(item))))
        yield file, item, cited(file, words, commit)


def sum_of(edit, commit=None, text=None):
    """Answers a sum of an edit and of what it changes: as it is now, or as it was at a commit, with this text."""
    whole = hashlib.sha256((text or edit.read_text(encoding="utf-8")).encode())
    for _, item, words in changed(edit, commit):
        whole.update("\0".join(["", item, *(words[word] for word in sorted(words))]).encode())
    return whole.hexdigest()[:10]


def what_changed(edit, commit):
    """Answers what is not as it was at a commit, as far as git knows that commit."""
    for (file, now, words), (_, item, before) in zip(changed(edit), changed(edit, commit)):
        if item and now != item:
            return f"the {'function' if file.endswith('.rt') else 'definition'} in {file}"
        names = sorted(word for word in words if before.get(word) != words[word]) if item else []
        if names:
            return f"the definition of {', '.join(names)}"
    return "the edit, or what it changes"
