"""A record as its batches, object calls and asked lines, for any number of tasks and any reply."""

from dataclasses import dataclass, field
from typing import Callable, Optional, Union


class RecordError(Exception):
    """A line of a record that has none of the known forms."""


@dataclass(frozen=True)
class Verdict:
    """A question, its answer, the case that decided, and the denying case that it went over (0: none)."""

    subject: str
    object: str
    modes: str
    allowed: bool
    case: int
    over: int = 0

    @property
    def answer(self) -> tuple[str, ...]:
        """The answer as the record prints it."""
        over = ("over", str(self.over)) if self.over else ()
        return ("allow" if self.allowed else "deny", str(self.case), *over)


@dataclass
class Batch:
    """A published batch: the version that it makes, and its writes as words."""

    version: int
    task: int
    seq: int
    writes: list[tuple[str, ...]] = field(default_factory=list)


@dataclass
class Entry:
    """An object call with its checks, its lines of the system's log, and its reply."""

    place: int
    task: int
    seq: int
    version: int
    words: tuple[str, ...]
    checks: list[Verdict] = field(default_factory=list)
    logged: list[str] = field(default_factory=list)
    reply: tuple[str, ...] = ()


@dataclass
class Asked:
    """A question, a refused write or a wait, and its answer."""

    task: int
    seq: int
    version: int
    words: tuple[str, ...]
    reply: tuple[str, ...] = ()

    @property
    def verdict(self) -> Optional[Verdict]:
        """The verdict of a question; None where the line is none."""
        if self.words[0] != "ask":
            return None
        return verdict_of(self.words[1:] + self.reply)


Item = Union[Batch, Entry, Asked]


@dataclass
class Record:
    """All that a record says. The items are found by the task's name and the call's number in it."""

    tasks: dict[int, str] = field(default_factory=dict)
    items: list[Item] = field(default_factory=list)
    ended: bool = False

    def by_call(self) -> dict[tuple[str, int], Item]:
        """Each item by its task's name and its number among the task's calls."""
        return {(self.tasks[item.task], item.seq): item for item in self.items}


def verdict_of(words: tuple[str, ...]) -> Verdict:
    """The verdict of the words `S O M allow CASE`, perhaps with `over CASE`, or `S O M deny CASE`."""
    over = int(words[6]) if len(words) > 6 else 0
    return Verdict(words[0], words[1], words[2], words[3] == "allow", int(words[4]), over)


def place_of(word: str) -> tuple[int, int]:
    """The task and the number of `TASK.SEQ`."""
    task, seq = word.split(".")
    return int(task), int(seq)


def read_task(record: Record, words: tuple[str, ...]) -> None:
    """`task NUMBER NAME`"""
    record.tasks[int(words[1])] = words[2]


def read_batch(record: Record, words: tuple[str, ...]) -> None:
    """`j VERSION TASK.SEQ COUNT`"""
    record.items.append(Batch(int(words[1]), *place_of(words[2])))


def read_write(record: Record, words: tuple[str, ...]) -> None:
    """`o WRITE`"""
    record.items[-1].writes.append(words[1:])


def read_entry(record: Record, words: tuple[str, ...]) -> None:
    """`h PLACE TASK.SEQ vVERSION CALL`"""
    record.items.append(Entry(int(words[1]), *place_of(words[2]), int(words[3][1:]), words[4:]))


def read_check(record: Record, words: tuple[str, ...]) -> None:
    """`c S O M ANSWER`"""
    record.items[-1].checks.append(verdict_of(words[1:]))


def read_logged(record: Record, words: tuple[str, ...]) -> None:
    """`a KEY=VALUE ..`"""
    record.items[-1].logged.append(" ".join(words[1:]))


def read_reply(record: Record, words: tuple[str, ...]) -> None:
    """`= REPLY`"""
    record.items[-1].reply = words[1:]


def read_asked(record: Record, words: tuple[str, ...]) -> None:
    """`q TASK.SEQ vVERSION WHAT`"""
    record.items.append(Asked(*place_of(words[1]), int(words[2][1:]), words[3:]))


def read_first(record: Record, words: tuple[str, ...]) -> None:
    """`smack 1`"""
    if words[1] != "1":
        raise RecordError(f"a record of format {words[1]}, and 1 is known here")


def read_end(record: Record, words: tuple[str, ...]) -> None:
    """`end BATCHES CALLS ASKED`"""
    record.ended = True


# Each form of line by its first word.
FORMS: dict[str, Callable[[Record, tuple[str, ...]], None]] = {
    "smack": read_first,
    "task": read_task,
    "j": read_batch,
    "o": read_write,
    "h": read_entry,
    "c": read_check,
    "a": read_logged,
    "=": read_reply,
    "q": read_asked,
    "end": read_end,
}


def read_record(data: bytes) -> Record:
    """The record that the bytes are. Raises RecordError at a line of no known form, or where it was cut short."""
    record = Record()
    for number, line in enumerate(data.decode("ascii", "surrogateescape").split("\n")[:-1], 1):
        words = tuple(line.split(" "))
        try:
            FORMS[words[0]](record, words)
        except (KeyError, IndexError, ValueError, AttributeError) as error:
            raise RecordError(f"line {number} of the record has no known form: {line}") from error
    if not record.ended:
        raise RecordError("the record was cut short")
    return record
