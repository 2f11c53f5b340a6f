"""The cases of the program: what each file of crates/a429_cases/data has, read as crates/a429_cases/src reads it.
crates/a429_cases/data/README.md has the form."""
import os
import re
from typing import NamedTuple, Optional

from repository import ROOT, text_of

FOLDER = os.path.join(ROOT, "crates", "a429_cases")
DATA = os.path.join(FOLDER, "data")
NO_MEMORY = b"\xffno memory"
# What a byte is written as after a backslash, besides `\xff`. Any other backslash is itself.
ESCAPES = {b"0": b"\0", b"\\": b"\\", b"n": b"\n", b"r": b"\r", b"t": b"\t"}


class Case(NamedTuple):
    """A case: its place, its title, the arguments of the program, the files that it finds, and what it must do. `err` has the
    lines that standard error must have, or None if it must be empty."""
    file: str
    line: int
    title: str
    words: list
    files: dict
    status: int
    out: Optional[bytes]
    err: Optional[bytes]
    has_failing_output: bool
    has_progress: bool


class Unreadable(NamedTuple):
    """A case that cannot be read: its place, its title, and why."""
    file: str
    line: int
    title: str
    why: str


# ---- Texts

def pieces(text, mark):
    """The pieces of a text between marks. There is none after a last mark."""
    while text:
        piece, _, text = text.partition(mark)
        yield piece


def number_before(text, mark):
    """The number before the first mark of a text and the text after it, or None and the whole text."""
    number, _, rest = text.partition(mark)
    return (int(number), rest) if number.strip().isdecimal() and rest else (None, text)


def spelled(text):
    """The bytes that a spelled text means."""
    count, part = number_before(text, " of ")
    unescaped = re.sub(rb"\\(?:x([0-9a-fA-F]{2})|([0\\nrt]))", lambda found: bytes.fromhex(found[1].decode()) if found[1] else
                       ESCAPES[found[2]], part.replace(";", "\n").encode())
    return unescaped * (1 if count is None else count)


def edited(text, edits):
    """A text after edits `OLD => NEW`, separated by bars."""
    for edit in pieces(edits, "|"):
        old, new = (spelled(side.strip()) for side in edit.partition("=>")[::2])
        if old not in text:
            raise ValueError(f"the text has no {old!r}")
        text = text.replace(old, new, 1)
    return text


def words_of(line):
    """The arguments of a line of bytes. Text between quotes is one argument."""
    words = []
    while line:
        is_quoted = line.startswith(b'"')
        word, _, line = line[is_quoted:].partition(b'"' if is_quoted else b" ")
        if is_quoted or word:
            words.append(os.fsdecode(word))
    return words


def name_and_form(part):
    """The name at the beginning of a part, and the rest."""
    end = re.search(r"[ \n]|$", part).start()
    return part[:end], part[end:]


def bytes_of(form, texts):
    """The bytes of a part, of which this follows the name."""
    if not form.startswith(" "):
        lines = pieces(form.partition("\n")[2], "\n")
        return b"".join(spelled(line[1:]) if line.startswith("\\") else line.encode() + b"\n" for line in lines)
    kind, _, text = form[1:].partition(" ")
    if kind == "has":
        return spelled(text)
    if kind != "is":
        raise ValueError(f"a part is {kind}")
    name, _, edits = text.partition(" with ")
    count, name = number_before(name, " bytes of ")
    if name not in texts:
        raise ValueError(f"there is no text {name}")
    return edited(texts[name][:count], edits)


# ---- Cases

def filled(text, row):
    """The text of a case with the fields of a row in their places."""
    case, rest = text, row
    for place in range(1, 5):
        field, rest = rest.partition("|")[::2] if f"{{{place + 1}}}" in text else (rest, "")
        case = case.replace(f"{{{place}}}", field.strip())
    return case


def case_of(file, line, title, text, texts):
    """The case of a text. Raises a ValueError if it is none."""
    words, _, parts = text.partition("\n--- ")
    found, status = {}, 0
    for part in pieces(parts, "\n--- "):
        name, form = name_and_form(part)
        if name == "out":
            number, form = name_and_form(form.lstrip())
            status = int(number)
        if name in found:
            raise ValueError(f"there are two parts {name}")
        found[name] = form.encode() if name == "fails" else bytes_of(form, texts)
    out, err, fails, progress = (found.pop(name, None) for name in ("out", "err", "fails", "progress"))
    return Case(file, line, title, words_of(spelled(words)), found, status, out, err, fails is not None, progress is not None)


def cases_of_section(file, line, section, texts):
    title, _, text = section.rstrip("\n").partition("\n")
    text, _, rows = text.partition("\n--- rows\n")
    at = line + section.partition("\n--- rows\n")[0].count("\n") + 2
    for place, row in enumerate(list(pieces(rows, "\n")) or [None]):
        where = (file, line if row is None else at + place, f"{title} {row or ''}".rstrip())
        try:
            yield case_of(*where, filled(text, row or ""), texts)
        except ValueError as fault:
            yield Unreadable(*where, str(fault))


def all_cases(only=()):
    """The cases of all files that crates/a429_cases/args names, in order. With paths `only` those of these files alone; they have
    the texts of all others."""
    texts = {}
    only = [os.path.realpath(path) for path in only]
    given = [os.path.join(DATA, name) for name in text_of(os.path.join(FOLDER, "args")).split()]
    for path in given + [path for path in only if path not in given]:
        with open(path, encoding="utf-8", newline="") as opened:
            text = opened.read()
        texts[os.path.basename(path)] = text.encode()
        head, *sections = text.split("\n=== ")
        line = head.count("\n") + 2
        for section in sections:
            if section.startswith("text "):
                name, form = name_and_form(section[len("text "):].rstrip("\n"))
                texts[name] = bytes_of(form, texts)
            elif not only or path in only:
                yield from cases_of_section(os.path.relpath(path, ROOT), line, section, texts)
            line += section.count("\n") + 1
