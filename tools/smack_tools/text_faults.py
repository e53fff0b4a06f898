"""Why the text of a write was refused, in words, with the place in the script."""

import re
from dataclasses import dataclass
from typing import Optional

from . import kinds, tables
from .screen import readable
from .script import Call, looks_like_call, looks_like_rule

# The mode letters of the fixed-width files and the most bytes of their labels; the places of the fields that a
# refusal names.
WIDE_MODES = "rwxat"
MOST_WIDE_LABEL_BYTES = 23
FIELD_PLACES = {"subject": 0, "object": 1, "allow": 2, "deny": 3, "number": 0}


@dataclass(frozen=True)
class TextFault:
    """A bad line of a text: its number in the text, from 1, and the reason."""

    line: int
    reason: str


def fields_of(file: str, line: str) -> list[str]:
    """The fields of a line of a text."""
    if file in tables.WIDE_FILES:
        return [part.strip(" ") for part in (line[:24], line[24:48], line[48:])]
    return re.findall(r"[^ \t]+", line)


def fields_wanted(file: str) -> str:
    """What a line of this file's text has, in words."""
    if file in tables.LINE_FILES:
        return ", ".join(tables.LINE_FILES[file])
    return tables.WORD_FILES.get(file, "labels, or - alone")


def counted(number: int, one: str, more: str = "") -> str:
    """A number and its noun."""
    return f"{number:,} {one if number == 1 else more or one + 's'}"


def field_reason(kind: str, file: str, word: str) -> Optional[kinds.Fault]:
    """Why a field is bad; the kind is the word of the refusal."""
    if kind in ("subject", "object", "label"):
        wide = file in tables.WIDE_FILES
        return kinds.label_fault(word, MOST_WIDE_LABEL_BYTES if wide else kinds.MOST_LABEL_BYTES)
    if kind in ("allow", "deny"):
        return kinds.mode_fault(WIDE_MODES if file in tables.WIDE_FILES else kinds.MODE_LETTERS)(word)
    return kinds.Fault(0, f"{file} takes {tables.WORD_FILES.get(file, 'a number')}")


def bad_field(kind: str, fields: list[str]) -> str:
    """The field that a refusal names; in a list of labels the first that is none."""
    if kind == "label":
        return next((word for word in fields if kinds.label_fault(word)), "")
    return next(iter(fields[FIELD_PLACES.get(kind, 0) :]), "")


def text_fault(call: Call, refusal: tuple[str, ...]) -> TextFault:
    """The fault that `bad-line LINE FAULT` names, in the text of a call."""
    file, number, kind = call.word(2), int(refusal[1]), refusal[2]
    line = call.text[number - 1] if number <= len(call.text) else ""
    wanted = fields_wanted(file)
    if kind == "fields" and file in tables.WORD_FILES:
        return TextFault(number, f"the text has {counted(int(refusal[3]), 'word')}, and {file} takes {wanted}")
    if kind == "fields":
        stands = counted(int(refusal[3]), "field stands", "fields stand")
        return TextFault(number, f"{stands} there, and a line for {file} has {wanted}")
    if kind == "width":
        return TextFault(number, f"it has {refusal[3]} bytes, and a line for {file} has {tables.WIDE_LINE}")
    word = bad_field(kind, fields_of(file, line))
    fault = field_reason(kind, file, word)
    return TextFault(number, f"{readable(word)}: {fault.reason}" if fault else " ".join(refusal[2:]))


def suspicion(call: Call, next_line: str = "") -> str:
    """Where the text of a write looks too long or too short: that its count may be wrong; else nothing."""
    for number, line in enumerate(call.text, 1):
        if looks_like_call(line) or line.startswith("# "):
            what = "a call" if looks_like_call(line) else "a comment"
            return (
                f"line {call.line + number} in its text looks like {what}: "
                f"is the count {call.count} of line {call.line} too large?"
            )
    if looks_like_rule(next_line) and call.word(2) in tables.LINE_FILES and not looks_like_call(next_line):
        behind = call.line + len(call.text) + 1
        return (
            f"the text of the write in line {call.line} ends before line {behind}, which looks like a rule: "
            f"is its count {call.count} too small?"
        )
    return ""


def refusal_reason(call: Call, refusal: tuple[str, ...], why_not: str) -> str:
    """Why a write was refused, in words. The last argument says why the task has no privilege."""
    kind = refusal[0]
    if kind == "not-privileged":
        return why_not
    if kind == "no-such-file":
        return f"there is no file {call.word(2)}: the files are {' '.join(tables.FILES)}"
    if kind != "bad-line":
        return " ".join(refusal)
    fault = text_fault(call, refusal)
    doubt = suspicion(call)
    return f"{call.place_of_text(fault.line)}: {fault.reason}" + (f"; {doubt}" if doubt else "")
