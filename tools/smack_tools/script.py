"""A script as its calls. The reader never fails: the program judges scripts, and this one says where their
calls stand. Up to the first bad line it finds the calls that the program finds."""

import re
from dataclasses import dataclass, field
from typing import Iterator, Optional

from . import kinds, tables
from .screen import readable

EXPECTATION = re.compile(r"#\s*expect(?:[:=]?\s+(.*))?", re.IGNORECASE)
ORIGIN = re.compile(r"# from (.+):([0-9]{1,9})")


@dataclass(frozen=True)
class Word:
    """A word of a line, and the place of its first letter, from 0."""

    text: str
    at: int


@dataclass(frozen=True)
class Expected:
    """What a comment before a call expects of its answer."""

    line: int
    words: tuple[str, ...]

    @property
    def shown(self) -> str:
        """The words as one line."""
        return readable(" ".join(self.words))


@dataclass(frozen=True)
class Origin:
    """The place that the first line of a text came from: a file and a line of it."""

    file: str
    line: int


@dataclass
class Call:
    """A call of a script: its line, from 1, its words, its number among the calls of its task, and the lines
    of its text, where it has one."""

    line: int
    words: list[Word]
    seq: int
    count: int = 0
    text: list[str] = field(default_factory=list)
    expected: Optional[Expected] = None
    origin: Optional[Origin] = None

    def word(self, k: int) -> str:
        """The word at place k, the task's being 0; empty where there is none."""
        return self.words[k].text if k < len(self.words) else ""

    @property
    def task(self) -> str:
        """The name of the task."""
        return self.word(0)

    @property
    def verb(self) -> str:
        """The verb."""
        return self.word(1)

    @property
    def shown(self) -> str:
        """The call as one line."""
        return " ".join(word.text for word in self.words)

    def place_of_text(self, line: int) -> str:
        """The place of a line of the text, from 1, in words: the script's line, and where it came from."""
        place = f"line {self.line + line}"
        if self.origin is None:
            return place
        return f"{place} ({self.origin.file}:{self.origin.line + line - 1})"


@dataclass
class Script:
    """A script: its lines and its calls, and the expectations that stand before no call."""

    lines: list[str]
    calls: list[Call]
    stray: list[Expected]

    def line(self, number: int) -> str:
        """A line by its number, from 1; empty behind the last."""
        return self.lines[number - 1] if number <= len(self.lines) else ""

    def call_at(self, line: int) -> Optional[Call]:
        """The call that stands in this line."""
        return next((call for call in self.calls if call.line == line), None)

    def writes(self) -> Iterator[Call]:
        """The calls with a text."""
        return (call for call in self.calls if call.verb == "write")


def words_of(line: str) -> list[Word]:
    """The words of a line, parted by spaces alone."""
    return [Word(found.group(), found.start()) for found in re.finditer(r"[^ ]+", line)]


def lines_of(data: bytes) -> list[str]:
    """The lines of a file without their line feeds. Bytes that are no UTF-8 are kept."""
    lines = data.decode("utf-8", "surrogateescape").split("\n")
    return lines[:-1] if lines[-1] == "" else lines


def count_of_text(words: list[Word]) -> int:
    """How many lines of text belong to a line with these words."""
    if len(words) != 4 or words[1].text != "write" or kinds.number_fault(words[3].text):
        return 0
    return int(words[3].text)


def read_script(data: bytes) -> Script:
    """The script that the bytes are."""
    lines = lines_of(data)
    script = Script(lines, [], [])
    seqs: dict[str, int] = {}
    expected: Optional[Expected] = None
    origin: Optional[Origin] = None
    at = 0
    while at < len(lines):
        line = lines[at]
        at += 1
        if line.startswith("#") or not line.strip(" "):
            found = ORIGIN.fullmatch(line)
            origin = Origin(readable(found[1]), int(found[2])) if found else origin
            expected = next_expected(script, expected, line, at)
            continue
        call = next_call(lines, at, seqs)
        call.expected, call.origin = expected, origin
        expected = origin = None
        at += len(call.text)
        script.calls.append(call)
    if expected:
        script.stray.append(expected)
    return script


def next_expected(script: Script, before: Optional[Expected], line: str, number: int) -> Optional[Expected]:
    """The expectation that holds behind a skipped line. One that another follows before any call is stray."""
    found = EXPECTATION.fullmatch(line)
    if not found:
        return before
    if before:
        script.stray.append(before)
    return Expected(number, tuple((found[1] or "").split()))


def next_call(lines: list[str], number: int, seqs: dict[str, int]) -> Call:
    """The call in the line of this number, from 1, with its text."""
    words = words_of(lines[number - 1])
    task = words[0].text
    seqs[task] = seqs.get(task, 0) + 1
    count = count_of_text(words)
    return Call(number, words, seqs[task], count, lines[number : number + count])


def looks_like_call(line: str) -> bool:
    """Whether a line has a task, a verb and as many words as the verb takes."""
    words = line.split()
    if len(words) < 2 or words[1] not in tables.VERBS or kinds.task_fault(words[0]):
        return False
    return len(words) - 2 == len(tables.VERBS[words[1]])


def looks_like_rule(line: str) -> bool:
    """Whether a line has the three or four fields of a rule."""
    fields = line.split()
    modes = kinds.mode_fault("rwxatbl")
    return len(fields) in (3, 4) and not any(modes(letters) for letters in fields[2:])
