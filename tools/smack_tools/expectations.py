"""What a script expects of its answers, in comments of the form `# expect ANSWER` before a call."""

from dataclasses import dataclass
from typing import Optional

from . import tables
from .account import Account, Line
from .script import Expected, Script

FIRST_WORDS = {"allow", "deny", "refused", *tables.REPLIES, *tables.REFUSALS, *tables.WRITE_REFUSALS}


@dataclass(frozen=True)
class Miss:
    """A line of the script, and what is wrong there."""

    line: int
    what: str


def is_met(expected: Expected, line: Line) -> bool:
    """Whether the answer begins with the words that are expected. `deny` and `denied` are one word here, and
    `refused` stands before any refusal or alone."""
    words = expected.words
    if words[:1] == ("refused",):
        if not line.refused:
            return False
        words = words[1:]
    answer = line.answer
    if line.denied and words[:1] in (("deny",), ("denied",)):
        words, answer = words[1:], answer[1:]
    return words == answer[: len(words)]


def answer_in_words(line: Line) -> str:
    """What was answered, for a message."""
    answer = list(line.answer)
    if line.answer[:1] in (("allow",), ("deny",), ("denied",)):
        answer[1:2] = ["by case", answer[1]]
    said = ("refused: " if line.refused else "") + " ".join(answer)
    return said + (f" ({line.reason})" if line.reason and answer != ["ok"] else "")


def stray_misses(script: Script) -> list[Miss]:
    """An expectation that stands before no call asserts nothing, so it is a miss."""
    return [Miss(one.line, f"`expect {one.shown}` stands before no call") for one in script.stray]


def refused_writes(account: Account) -> list[Miss]:
    """The writes that were refused, and of which nothing is expected."""
    return [
        Miss(line.call.line, f"write {line.call.word(2)} was {answer_in_words(line)}")
        for line in account.lines
        if line.refused and line.call.verb == "write" and line.call.expected is None
    ]


def miss_of(line: Line) -> Optional[Miss]:
    """What is wrong with an answer of which something is expected; None where nothing is."""
    expected = line.call.expected
    if expected is None:
        return None
    if not expected.words or expected.words[0] not in FIRST_WORDS:
        return Miss(expected.line, f"`expect {expected.shown}`: no answer begins so")
    if is_met(expected, line):
        return None
    return Miss(line.call.line, f"expected {expected.shown}, got {answer_in_words(line)}")


def misses_of(script: Script, account: Account) -> list[Miss]:
    """All that is wrong with the answers of a run, in the order of the lines."""
    found = [miss for miss in map(miss_of, account.lines) if miss] + refused_writes(account)
    found += [Miss(0, f"the explanation and the record differ: {what}") for what in account.differences]
    return sorted(found + stray_misses(script), key=lambda miss: miss.line)


def count_of(script: Script) -> int:
    """How many expectations a script has."""
    return len(script.stray) + sum(1 for call in script.calls if call.expected)
