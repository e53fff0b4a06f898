"""What is wrong with a script that the program refuses, in words, behind the program's own line."""

import re
from dataclasses import dataclass
from typing import Callable, Optional

from . import kinds, tables
from .script import Call, Script, Word, looks_like_rule, words_of
from .screen import readable, with_caret
from .spelling import nearest
from .text_faults import counted, suspicion

REFUSED = re.compile(r"smack: line (\d+): (.*)")
TOO_LARGE = re.compile(r"smack: too large: (\w+)")


@dataclass(frozen=True)
class Found:
    """The letters of a line that are wrong, and why."""

    at: int
    width: int
    reason: str


def diagnose(script: Script, message: str) -> str:
    """What is to be said behind the program's line; empty where the line is of another kind."""
    refused = REFUSED.fullmatch(message)
    if refused:
        return bad_line(script, int(refused[1]), refused[2])
    large = TOO_LARGE.fullmatch(message)
    return too_large(script, large[1]) if large else ""


def bad_line(script: Script, number: int, cause: str) -> str:
    """The line, carets under the bad word, and the reason."""
    line = script.line(number)
    words = words_of(line)
    found = hidden_letter(number, line, words, cause) or reason_of(script, number, words, cause)
    parts = [with_caret(number, line, found.at, found.width), found.reason]
    doubt = doubt_before(script, number, cause)
    return "\n".join(parts + ([doubt] if doubt else []))


def hidden_letter(number: int, line: str, words: list[Word], cause: str) -> Optional[Found]:
    """A letter that an editor does not show, where it is what the program stumbled over."""
    if number == 1 and line.startswith("\ufeff"):
        return Found(0, 1, "the file begins with a byte-order mark: save it without one")
    if cause not in ("words", "verb") and not cause.startswith("word "):
        return None
    if line.endswith("\r"):
        reason = (
            "the line ends with a carriage return, as Windows writes lines: "
            "convert the file, as by  tr -d '\\r' < OLD > NEW"
        )
        return Found(len(line) - 1, 1, reason)
    if "\t" in line:
        return Found(line.index("\t"), 1, "a tab does not part the words of a call: put spaces in its place")
    return None


def whole(words: list[Word], reason: str) -> Found:
    """The whole line is meant."""
    end = words[-1].at + len(words[-1].text)
    return Found(words[0].at, end - words[0].at, reason)


def under(word: Word, reason: str) -> Found:
    """One word is meant."""
    return Found(word.at, len(word.text), reason)


def reason_of(script: Script, number: int, words: list[Word], cause: str) -> Found:
    """Why the program refused the line, by its cause."""
    reasons: dict[str, Callable[[], Found]] = {
        "verb": lambda: verb_reason(words),
        "not-built": lambda: not_built_reason(words),
        "words": lambda: words_reason(words),
        "text": lambda: text_reason(script, number, words),
        "task": lambda: task_reason(script, number, words),
        "name": lambda: name_reason(words),
        "wait": lambda: wait_reason(script, number, words),
    }
    if cause in reasons:
        return reasons[cause]()
    return word_reason(words, int(cause.split()[1]))


def form_of(verb: str) -> str:
    """A call of this verb, with the names of its words."""
    return " ".join(["init", verb, *(kind.name for kind in tables.VERBS[verb])])


def without_task(words: list[Word]) -> Optional[Found]:
    """The line begins with a verb."""
    if words[0].text not in tables.VERBS:
        return None
    rest = readable(" ".join(word.text for word in words))
    return under(words[0], f"the line begins with the verb; a task stands before it: init {rest}")


def verb_reason(words: list[Word]) -> Found:
    """The second word is no verb."""
    missing = without_task(words)
    if missing:
        return missing
    if len(words) == 1:
        return under(words[0], "a line is a task, a verb and its words")
    verb = words[1].text
    near = nearest(verb, tables.VERBS)
    if looks_like_rule(" ".join(word.text for word in words)):
        return under(words[1], f"{readable(verb)} is no verb: the line looks like a rule")
    hint = f": is it {near}?" if near else f"; the verbs are {' '.join(tables.BUILT_VERBS)}"
    return under(words[1], f"{readable(verb)} is no verb{hint}")


def not_built_reason(words: list[Word]) -> Found:
    """A verb, a file or a path that the program does not have yet."""
    verb = words[1]
    if verb.text == "write" and len(words) > 2:
        return under(words[2], f"the file {words[2].text} is not built into this program yet")
    if kinds.PATH in tables.VERBS.get(verb.text, ()) and verb.text in tables.BUILT_VERBS and len(words) > 2:
        return under(words[2], "a path has one name yet: there is no directory but the root")
    return under(verb, f"the verb {verb.text} is not built into this program yet")


def words_reason(words: list[Word]) -> Found:
    """The number of words is another."""
    verb = words[1].text
    wanted = tables.VERBS.get(verb, ())
    there = counted(len(words) - 2, "stands there", "stand there")
    reason = f"{verb} takes {counted(len(wanted), 'word')}, and {there}: {form_of(verb)}"
    if len(words) - 2 > len(wanted):
        spare = words[2 + len(wanted)]
        return Found(spare.at, words[-1].at + len(words[-1].text) - spare.at, reason)
    return whole(words, reason)


def word_reason(words: list[Word], k: int) -> Found:
    """The k-th word, counted from the task as 1, is not of its kind."""
    word = words[k - 1]
    if k == 1 and word.text.startswith("#"):
        return under(word, "a comment begins with the first letter of its line, without a space in front")
    if k == 1:
        fault = kinds.task_fault(word.text)
        return under(word, fault.reason if fault else "it is no name of a task")
    kind = tables.VERBS[words[1].text][k - 3]
    fault = kind.fault(word.text) or kinds.Fault(0, f"it is {kind.form}")
    near = nearest(word.text, kind.form.replace(",", "").split()) if kind in (kinds.CAP, kinds.ATTR) else None
    reason = f"the {kind.name} of {words[1].text}: {fault.reason}" + (f"; is it {near}?" if near else "")
    return Found(word.at + fault.at, 1 if fault.at else len(word.text), reason)


def text_reason(script: Script, number: int, words: list[Word]) -> Found:
    """Fewer lines follow than the write says."""
    behind = counted(len(script.lines) - number, "line follows", "lines follow")
    return under(words[3], f"the text has {counted(int(words[3].text), 'line')} by this count, and {behind}")


def task_reason(script: Script, number: int, words: list[Word]) -> Found:
    """The task is not there at this line."""
    name = words[0].text
    missing = without_task(words)
    if missing:
        return missing
    for call in script.calls:
        if call.line < number and call.task == name and call.verb == "exit":
            return under(words[0], f"the task {name} has exited in line {call.line}")
        if call.line < number and call.verb == "wait" and call.word(2) == name:
            return under(words[0], f"the task {name} was waited for in line {call.line}")
    if any(call.line < number and call.verb == "fork" and call.word(2) == name for call in script.calls):
        return under(words[0], f"a task that {name} comes from was waited for before this line")
    near = nearest(name, ["init"])
    hint = "; is it init?" if near else "; the first task is init"
    return under(words[0], f"no line before this one forks a task {name}{hint}")


def name_reason(words: list[Word]) -> Found:
    """A fork names a task that is there, or another verb names one that is not."""
    verb = words[1].text
    name = words[3] if verb == "trace" else words[2]
    if verb == "fork":
        return under(name, f"there is a task {name.text} already: each fork makes a name of its own")
    return under(name, f"no line before this one forks a task {name.text}")


def wait_reason(script: Script, number: int, words: list[Word]) -> Found:
    """The task is not the one that may be waited for."""
    children = []
    for call in script.calls:
        if call.line < number and call.task == words[0].text and call.verb == "fork":
            children.append(call.word(2))
        elif call.line < number and call.task == words[0].text and call.verb == "wait":
            children.pop()
    latest = children[-1] if children else "there is none"
    return under(words[2], f"a task waits for the child that it forked last and has not waited for: {latest}")


def doubt_before(script: Script, number: int, cause: str) -> str:
    """Whether the count of the last write before a bad line, or of the bad line itself, may be wrong."""
    before = [call for call in script.writes() if call.line <= number]
    if not before:
        return ""
    last = before[-1]
    if last.line == number:
        return suspicion(last)
    adjacent = last.line + len(last.text) + 1 == number
    if cause in ("verb", "word 1", "task", "words"):
        return suspicion(last, script.line(number) if adjacent else "")
    return ""


def too_large(script: Script, what: str) -> str:
    """Which limit a script breaks, and where."""
    reasons: dict[str, Callable[[], str]] = {
        "bytes": lambda: f"the script has more than {tables.MOST_BYTES:,} bytes, which is the limit",
        "lines": lambda: f"the script has {len(script.lines):,} lines, and the limit is {tables.MOST_LINES:,}",
        "text": lambda: large_text(script),
        "labels": lambda: f"a script has at most {tables.MOST_LABELS:,} labels, with the five predefined",
        "rows": lambda: f"the writes of a script, with one more for each text, are at most {tables.MOST_ROWS:,}",
        "tasks": lambda: f"a script has at most {tables.MOST_TASKS} tasks, init with them",
    }
    return reasons[what]() if what in reasons else ""


def text_bytes(call: Call) -> int:
    """The bytes of a text with its line feeds."""
    return sum(kinds.byte_count(line) + 1 for line in call.text)


def large_text(script: Script) -> str:
    """The first write whose text has too many bytes."""
    for call in script.writes():
        size = text_bytes(call)
        if size > tables.MOST_TEXT_BYTES:
            reason = (
                f"the text of this write has {size:,} bytes, and the limit is {tables.MOST_TEXT_BYTES:,}: "
                "cut it into several writes, as smack policy does"
            )
            doubt = suspicion(call)
            shown = with_caret(call.line, script.line(call.line), 0, len(script.line(call.line)))
            return "\n".join([shown, reason] + ([doubt] if doubt else []))
    return ""
