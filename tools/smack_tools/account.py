"""An account of a run: for each call of the script, in its order, what the record answers and why. The rules
are folded here a second time, for the reasons; where the fold and a verdict of the record differ, the account
says so."""

from dataclasses import dataclass, field
from typing import Optional

from . import tables
from .judging import asked_answer, check_answer
from .reasons import Reasons, Told
from .record import Asked, Batch, Entry, Record, RecordError
from .rules import Rules
from .script import Call, Script
from .tasks import ADMIN, Task
from .text_faults import counted, refusal_reason, suspicion


@dataclass
class Line:
    """What is told of a call. The answer is empty where the record has nothing of it."""

    call: Call
    version: int = 0
    answer: tuple[str, ...] = ()
    reason: str = ""
    refused: bool = False
    checks: list[Told] = field(default_factory=list)
    note: str = ""

    @property
    def denied(self) -> bool:
        """Whether the call was denied by a case."""
        return self.answer[:1] in (("deny",), ("denied",))


@dataclass
class Account:
    """The lines of a run, a task that may write rules before each call, and where fold and record differ."""

    lines: list[Line] = field(default_factory=list)
    writers: list[Optional[str]] = field(default_factory=list)
    differences: list[str] = field(default_factory=list)


class Teller:
    """Goes through the calls of a script in their order."""

    def __init__(self, script: Script, record: Record) -> None:
        self.script = script
        self.items = record.by_call()
        self.rules = Rules()
        self.reasons = Reasons(self.rules)
        self.tasks = {"init": Task()}
        self.parents: dict[str, str] = {}
        self.owners: dict[str, str] = {}
        self.account = Account()

    def tell(self) -> Account:
        """The account of the whole script."""
        for call in self.script.calls:
            self.account.writers.append(self.writer())
            line = Line(call)
            item = self.items.get((call.task, call.seq))
            if isinstance(item, Batch):
                self.tell_batch(line, item)
            elif isinstance(item, Entry):
                self.tell_entry(line, item)
            elif isinstance(item, Asked):
                self.tell_asked(line, item)
            else:
                self.differ(call, "the record has no batch, call or question of this line")
            self.account.lines.append(line)
        return self.account

    def writer(self) -> Optional[str]:
        """A task that may write rules now, `init` before all others."""
        able = (name for name, task in self.tasks.items() if not task.ended and task.effective(ADMIN, self.rules))
        return next(able, None)

    def differ(self, call: Call, what: str) -> None:
        """Keeps a difference between the fold and the record."""
        self.account.differences.append(f"line {call.line}: {call.shown}: {what}")

    def see_version(self, call: Call, version: int) -> None:
        """Compares the version that the record prints with that of the fold."""
        if version != self.rules.version:
            self.differ(call, f"judged in version {version} where the fold is at {self.rules.version}")

    def see_answer(self, call: Call, folded: tuple[str, ...], recorded: tuple[str, ...]) -> None:
        """Compares a verdict of the record with that of the fold."""
        if folded != recorded:
            self.differ(call, f"the fold answers {' '.join(folded)}, the record {' '.join(recorded)}")

    def tell_batch(self, line: Line, batch: Batch) -> None:
        """A write that was published."""
        call = line.call
        self.see_version(call, batch.version - 1)
        for write, place in zip(batch.writes, places_of_writes(call, len(batch.writes))):
            self.rules.apply(write, place)
        self.rules.version = line.version = batch.version
        line.answer = ("ok",)
        line.reason = f"version {batch.version}, {counted(len(batch.writes), 'write')}"
        line.note = suspicion(call)

    def tell_entry(self, line: Line, entry: Entry) -> None:
        """An object call."""
        call = line.call
        self.see_version(call, entry.version)
        task = self.tasks.setdefault(call.task, Task())
        line.version, line.answer = entry.version, entry.reply
        line.refused = entry.reply[0] not in tables.REPLIES
        for place, check in enumerate(entry.checks):
            if entry.words[0] not in tables.SOCKET_VERBS:
                task.learn(check)
            asks = self.asking_task(entry, place, task)
            self.see_answer(call, check_answer(self.rules, entry, check, asks), check.answer)
            line.checks.append(self.reasons.tell(check, asks))
        line.reason = self.entry_reason(line, entry, task)
        self.take(entry, call, task)

    def asking_task(self, entry: Entry, place: int, task: Task) -> Task:
        """The task whose privilege and self rules a check goes by: the caller, but for the way back of a
        connection, which the owner of the other socket asks."""
        if entry.words[0] != "connect" or place == 0:
            return task
        return self.tasks.get(self.owners.get(entry.words[2], ""), task)

    def take(self, entry: Entry, call: Call, task: Task) -> None:
        """The effect of an object call on its task, on the tasks there are, and on who owns a socket."""
        if entry.words[0] == "fork" and entry.reply[0] == "child":
            self.tasks[entry.words[1]] = task.child()
            self.parents[entry.words[1]] = call.task
        if entry.words[0] == "socket" and entry.reply[0] == "ok":
            self.owners[entry.words[2]] = call.task
        task.take(entry, places_of_text(call) or [f"line {call.line}"], self.rules)

    def entry_reason(self, line: Line, entry: Entry, task: Task) -> str:
        """Why an object call was denied or refused."""
        if line.denied:
            return line.checks[-1].reason if line.checks else ""
        if entry.reply[0] == "not-privileged":
            listed = ", and the task's relabel list lacks the label" if entry.words[0] == "relabel" else ""
            return task.why_not(ADMIN, self.rules) + listed
        return tables.REFUSALS.get(entry.reply[0], "") if line.refused else ""

    def tell_asked(self, line: Line, asked: Asked) -> None:
        """A question, a refused write or a wait."""
        call, verdict = line.call, asked.verdict
        self.see_version(call, asked.version)
        line.version, line.answer = asked.version, asked.reply
        if verdict:
            self.see_answer(call, asked_answer(self.rules, verdict), verdict.answer)
            told = self.reasons.tell(verdict, None)
            line.checks, line.reason = [told], told.reason
        elif asked.words[0] == "write":
            line.refused = True
            why_not = self.tasks.get(call.task, Task()).why_not(ADMIN, self.rules)
            line.reason = refusal_reason(call, asked.reply, why_not)
        elif asked.words[0] == "wait":
            self.end(asked.words[1])

    def end(self, name: str) -> None:
        """Ends the lines of a task that was waited for, and of those that descend from it."""
        gone = {name}
        for child, parent in self.parents.items():
            if parent in gone:
                gone.add(child)
        for one in gone & self.tasks.keys():
            self.tasks[one].ended = True


def places_of_text(call: Call) -> list[str]:
    """The place of each line of a text that is not blank, in words."""
    blank = "" if call.word(2) in tables.WIDE_FILES else " \t"
    filled = [number for number, text in enumerate(call.text, 1) if text.strip(blank)]
    return [call.place_of_text(number) for number in filled]


def places_of_writes(call: Call, count: int) -> list[str]:
    """The place of each write that a text became, in words: its line, or the call where they are not so many."""
    places = places_of_text(call)
    return places if len(places) == count else [f"line {call.line}"] * count


def tell(script: Script, record: Record) -> Account:
    """The account of a run of the script with this record. Raises RecordError where the record lacks words."""
    try:
        return Teller(script, record).tell()
    except (IndexError, KeyError, ValueError) as error:
        raise RecordError(f"the record cannot be told: {error!r}") from error
