"""smack policy: policy files, as authors have them, as the writes of a script. A file has lines of three fields
(`subject object modes`, for load2) or of four (`subject object modes-to-give modes-to-take-away`, for
change-rule), comments with `#`, and blank lines."""

import os
import re
import sys
from dataclasses import dataclass, field
from pathlib import Path
from typing import Iterator, Optional

from . import kinds, tables
from .runs import say_cannot_read
from .screen import readable, say
from .script import count_of_text, lines_of, words_of
from .text_faults import counted

FILE_OF_FIELDS = {3: "load2", 4: "change-rule"}
ANSWERS = ("allow", "deny")
BYTE_ORDER_MARK = "the file begins with a byte-order mark: save it without one"
WINDOWS_END = "the line ends with a carriage return, as Windows writes lines"


@dataclass(frozen=True)
class Bad:
    """A line that the program would refuse."""

    file: str
    line: int
    reason: str


@dataclass
class Chunk:
    """Lines of one policy file that become the text of one write. Lines without a rule stay as empty lines, so
    that the lines of the text keep their distance."""

    target: str
    file: str
    line: int
    lines: list[str] = field(default_factory=list)
    size: int = 0

    def add(self, line: str) -> None:
        """Takes one line more."""
        self.lines.append(line)
        self.size += kinds.byte_count(line) + 1

    def script_lines(self) -> list[str]:
        """The lines of the script for this chunk."""
        while self.lines and not self.lines[-1]:
            self.lines.pop()
        return [f"# from {readable(self.file)}:{self.line}", f"init write {self.target} {len(self.lines)}", *self.lines]


def words_by_blanks(line: str) -> list[str]:
    """The words of a line, parted by spaces and tabs."""
    return re.findall(r"[^ \t]+", line)


def fields_of(line: str) -> list[str]:
    """The fields of a line of a policy file, without its comment. A label may begin with `#`, so behind the
    first field a comment begins only where modes would stand or behind them."""
    fields = words_by_blanks(line)
    if not fields or fields[0].startswith("#"):
        return []
    cut = next((at for at, word in enumerate(fields) if at >= 3 and word.startswith("#")), len(fields))
    return fields[:cut]


def fault_of(fields: list[str]) -> Optional[str]:
    """Why the program would refuse the fields of a line; None where it would not."""
    if any(word.endswith("\r") for word in fields):
        return WINDOWS_END
    if fields[0].startswith("\ufeff"):
        return BYTE_ORDER_MARK
    if len(fields) not in FILE_OF_FIELDS:
        return f"{counted(len(fields), 'field')}, and a rule has three (subject, object, modes) or four"
    judges = (kinds.LABEL, kinds.LABEL, kinds.MODES, kinds.MODES)
    for name, kind, word in zip(("subject", "object", "modes", "modes to take away"), judges, fields):
        fault = kind.fault(word)
        if fault:
            return f"{name} {readable(word)}: {fault.reason}"
    return None


def chunks_of(name: str, lines: list[str], bad: list[Bad]) -> Iterator[Chunk]:
    """The chunks of a policy file, in order; bad lines are added to the list."""
    chunk: Optional[Chunk] = None
    for number, line in enumerate(lines, 1):
        fields = fields_of(line)
        fault = fault_of(fields) if fields else None
        if fault:
            bad.append(Bad(name, number, fault))
            continue
        rule = " ".join(fields)
        target = FILE_OF_FIELDS[len(fields)] if fields else None
        full = chunk is not None and chunk.size + len(rule) + 1 >= tables.MOST_TEXT_BYTES
        if chunk and (full or (target and target != chunk.target)):
            yield chunk
            chunk = None
        if chunk is None and target:
            chunk = Chunk(target, name, number)
        if chunk:
            chunk.add(rule)
    if chunk:
        yield chunk


def files_of(path: str) -> list[str]:
    """The files that a path stands for: itself, or the files of a folder in the order of their names, without
    those that begin with a dot or end with a tilde. A link that leads nowhere is one, and cannot be read."""
    if not os.path.isdir(path):
        return [path]
    names = sorted(name for name in os.listdir(path) if not name.startswith(".") and not name.endswith("~"))
    files = [os.path.join(path, name) for name in names]
    return [file for file in files if os.path.isfile(file) or not os.path.exists(file)]


def is_call(line: str) -> bool:
    """Whether a line of a questions file is a line of a script."""
    words = words_of(line)
    return len(words) > 1 and words[1].text in tables.VERBS and not kinds.task_fault(words[0].text)


def question_lines(name: str, lines: list[str], bad: list[Bad]) -> list[str]:
    """The lines of a questions file as lines of a script. A call, a comment and a blank line stay, and so does
    the text of a write; `SUBJECT OBJECT MODES`, perhaps with an answer, becomes a question."""
    made: list[str] = []
    text_left = 0
    for number, line in enumerate(lines, 1):
        fields = words_by_blanks(line)
        if line.endswith("\r"):
            bad.append(Bad(name, number, WINDOWS_END))
        elif text_left or not fields or line.startswith("#"):
            text_left = max(text_left - 1, 0)
            made.append(line)
        elif is_call(line):
            text_left = count_of_text(words_of(line))
            made.append(line)
        else:
            fault = question_fault(fields)
            if fault:
                bad.append(Bad(name, number, fault))
                continue
            if fields[3:]:
                made.append(f"# expect {' '.join(fields[3:])}")
            made.append(f"init ask {' '.join(fields[:3])}")
    return made


def question_fault(fields: list[str]) -> Optional[str]:
    """Why a short question is none; None where it is one."""
    if fields[0].startswith("\ufeff"):
        return BYTE_ORDER_MARK
    if len(fields) < 3 or (len(fields) > 3 and fields[3] not in ANSWERS):
        return "a question is SUBJECT OBJECT MODES, with allow or deny and a case behind it if you like; or a call"
    return fault_of(fields[:3])


def read_policy(paths: list[str], bad: list[Bad]) -> list[str]:
    """The writes of all files, as lines of a script. Raises OSError."""
    made: list[str] = []
    for path in paths:
        files = files_of(path)
        if not files:
            bad.append(Bad(path, 0, "the folder has no policy file"))
        for name in files:
            for chunk in chunks_of(name, lines_of(Path(name).read_bytes()), bad):
                made += chunk.script_lines()
    return made


def bad_lines(bad: list[Bad]) -> Iterator[str]:
    """A message for each bad line. Lines that follow one another and are bad in the same way have one."""
    runs: list[list[Bad]] = []
    for one in bad:
        if runs and follows(runs[-1][-1], one):
            runs[-1].append(one)
        else:
            runs.append([one])
    for first, *more in runs:
        last = f" to {more[-1].line}" if more else ""
        yield f"{first.file}:{first.line}{last}: {first.reason}"


def follows(one: Bad, other: Bad) -> bool:
    """Whether two bad lines are neighbours and bad in the same way. Between line ends of Windows there may be
    comments."""
    alike = (one.file, one.reason) == (other.file, other.reason)
    return alike and (other.line == one.line + 1 or one.reason == WINDOWS_END)


def limit_faults(made: list[str]) -> list[str]:
    """The limits that the whole script breaks."""
    size = sum(kinds.byte_count(line) + 1 for line in made)
    faults = []
    if size > tables.MOST_BYTES:
        faults.append(f"the script would have {size:,} bytes, and the limit is {tables.MOST_BYTES:,}")
    if len(made) > tables.MOST_LINES:
        faults.append(f"the script would have {len(made):,} lines, and the limit is {tables.MOST_LINES:,}")
    return faults


def policy(paths: list[str], questions: Optional[str]) -> int:
    """Prints the script. Where lines are bad it names all of them instead, and the status is 1."""
    bad: list[Bad] = []
    try:
        made = read_policy(paths, bad)
        if questions:
            made += question_lines(questions, lines_of(Path(questions).read_bytes()), bad)
    except OSError as error:
        return say_cannot_read(error.filename, error)
    for message in bad_lines(bad):
        say(message)
    faults = limit_faults(made)
    for fault in faults:
        say(f"smack: {fault}")
    if bad or faults:
        say(f"smack: {counted(len(bad), 'bad line')}; nothing was printed")
        return 1
    sys.stdout.write("".join(line + "\n" for line in made))
    return 0
