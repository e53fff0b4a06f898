"""The kinds of words that a script has, and in words why a word is not of its kind."""

import re
from dataclasses import dataclass
from typing import Callable, Optional

from .screen import is_byte, letter_code

MODE_LETTERS = "rwxatb"
MOST_LABEL_BYTES = 255
MOST_NUMBER = 4_294_967_295


@dataclass(frozen=True)
class Fault:
    """Why a word is not of its kind: the place of the first bad letter in it, from 0, and the reason."""

    at: int
    reason: str


@dataclass(frozen=True)
class Kind:
    """A kind of word: its name as the documents have it, its form in words, and its judge."""

    name: str
    form: str
    fault: Callable[[str], Optional[Fault]]


def byte_count(word: str) -> int:
    """The bytes of a word as it stood in the file."""
    return len(word.encode("utf-8", "surrogateescape"))


def letter_name(letter: str) -> str:
    """A letter as a message shows it."""
    names = {"\r": "a carriage return", "\t": "a tab", "\ufeff": "a byte-order mark", " ": "a space"}
    if letter in names:
        return names[letter]
    if "!" <= letter <= "~":
        return f"`{letter}`"
    if letter.isprintable():
        return f"`{letter}`, which is not ASCII,"
    return f"the unprintable {'byte 0x' if is_byte(letter) else 'letter '}{letter_code(letter)}"


def first_outside(word: str, allowed: Callable[[str], bool]) -> Optional[int]:
    """The place of the first letter that is not allowed."""
    return next((at for at, letter in enumerate(word) if not allowed(letter)), None)


def is_printable(letter: str) -> bool:
    """A byte from 0x21 to 0x7E."""
    return "!" <= letter <= "~"


def is_label_letter(letter: str) -> bool:
    """A byte that a label may have."""
    return is_printable(letter) and letter not in "/\\'\""


def label_fault(word: str, most: int = MOST_LABEL_BYTES) -> Optional[Fault]:
    """The first fault of a label: empty, too long, a leading dash, a bad letter."""
    if not word:
        return Fault(0, "a label has at least one letter")
    if byte_count(word) > most:
        return Fault(0, f"a label has at most {most} bytes, and this has {byte_count(word)}")
    if word.startswith("-"):
        return Fault(0, "a label does not begin with a dash")
    at = first_outside(word, is_label_letter)
    if at is None:
        return None
    return Fault(at, f"{letter_name(word[at])} is no letter of a label")


def mode_fault(letters: str) -> Callable[[str], Optional[Fault]]:
    """The judge of modes that may have these letters, in either case, and dashes."""

    def fault(word: str) -> Optional[Fault]:
        at = first_outside(word, lambda letter: letter.lower() in letters or letter == "-")
        if at is None:
            return None
        known = " ".join(letters)
        more = " (lock has no letter here)" if word[at] in "lL" else ""
        return Fault(at, f"{letter_name(word[at])} is no mode{more}: the letters are {known} and the dash")

    return fault


def number_fault(word: str) -> Optional[Fault]:
    """Why a word is no decimal number."""
    at = first_outside(word, lambda letter: letter in "0123456789")
    if at is not None:
        return Fault(at, f"{letter_name(word[at])} is no digit")
    if len(word) > 1 and word.startswith("0"):
        return Fault(0, "a number has no zero in front")
    if len(word) > len(str(MOST_NUMBER)) or int(word) > MOST_NUMBER:
        return Fault(0, f"a number is at most {MOST_NUMBER:,}")
    return None


def printable_fault(most: int) -> Callable[[str], Optional[Fault]]:
    """The judge of words of printable bytes, at most so many."""

    def fault(word: str) -> Optional[Fault]:
        if byte_count(word) > most:
            return Fault(0, f"it has at most {most} bytes, and this has {byte_count(word)}")
        at = first_outside(word, is_printable)
        return None if at is None else Fault(at, f"{letter_name(word[at])} does not belong there")

    return fault


def task_fault(word: str) -> Optional[Fault]:
    """Why a word is no name of a task."""
    at = first_outside(word, lambda letter: letter.isascii() and (letter.isalnum() or letter == "_"))
    if at is not None:
        return Fault(at, f"{letter_name(word[at])} is no letter of a task's name")
    if len(word) > 16:
        return Fault(0, f"a task's name has at most 16 letters, and this has {len(word)}")
    return None


def path_fault(word: str) -> Optional[Fault]:
    """Why a word is no path."""
    if not word.startswith("/"):
        return Fault(0, "a path begins with /")
    if word == "/":
        return None
    names = word[1:].split("/")
    if len(names) > 32:
        return Fault(0, f"a path has at most 32 names, and this has {len(names)}")
    place = 1
    for name in names:
        fault = name_fault(name)
        if fault:
            return Fault(place + fault.at, fault.reason)
        place += len(name) + 1
    return None


def name_fault(name: str) -> Optional[Fault]:
    """Why a word is no name of a path."""
    if name in ("", ".", ".."):
        return Fault(0, "a name of a path is not empty, and neither . nor ..")
    if byte_count(name) > 64:
        return Fault(0, f"a name of a path has at most 64 bytes, and this has {byte_count(name)}")
    at = first_outside(name, is_printable)
    return None if at is None else Fault(at, f"{letter_name(name[at])} does not belong there")


def one_of(name: str, *words: str) -> Kind:
    """The kind of word that is one of these."""
    listed = ", ".join(words[:-1]) + " or " + words[-1]
    return Kind(name, listed, lambda word: None if word in words else Fault(0, f"it is {listed}"))


def pattern(name: str, form: str, expression: str) -> Kind:
    """The kind of word that matches an expression."""
    whole = re.compile(expression)
    return Kind(name, form, lambda word: None if whole.fullmatch(word) else Fault(0, f"it is {form}"))


NAME = Kind("NAME", "1 to 16 letters, digits and _", task_fault)
LABEL = Kind("LABEL", "1 to 255 printable bytes without / \\ ' \"", label_fault)
MODES = Kind("MODES", "letters of rwxatb, or -", mode_fault(MODE_LETTERS))
FILE = Kind("FILE", "a smackfs file", printable_fault(32))
PATH = Kind("PATH", "/ or names, each behind a /", path_fault)
NUMBER = Kind("N", "a number", number_fault)
KEY = Kind("KEY", "a number", number_fault)
SOCK = Kind("SOCK", "1 to 64 printable bytes", printable_fault(64))
DATA = Kind("DATA", "1 to 255 printable bytes", printable_fault(255))
CAP = one_of("CAP", "mac-admin", "mac-override", "sys-ptrace")
ATTR = one_of(
    "ATTR", "SMACK64", "SMACK64EXEC", "SMACK64MMAP", "SMACK64TRANSMUTE", "SMACK64IPIN", "SMACK64IPOUT"
)
VALUE = Kind("VALUE", "a label, or TRUE behind SMACK64TRANSMUTE", label_fault)
WAY = one_of("WAY", "r", "w", "rw", "a")
ATTACH_WAY = one_of("WAY", "r", "rw")
SIGNAL = pattern("SIG", "a number from 1 to 31", r"[1-9]|[12][0-9]|3[01]")
STEP = pattern("D", "+ or - and a number from 1 to 65,535", r"[+-][1-9][0-9]{0,4}")
