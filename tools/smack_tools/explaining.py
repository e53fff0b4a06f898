"""smack explain: a run in the order of the script, with the reason for each answer."""

import json
import sys

from .account import Line
from .program import Program
from .reasons import Told
from .record import RecordError
from .rules import text_of
from .runs import Run, run_file, say_cannot_read
from .screen import coloured, has_colours, say


def answer_text(words: tuple[str, ...], colours: bool) -> str:
    """An answer, green where it grants and red where it does not."""
    good = words[:1] and words[0] in ("allow", "ok", "names", "child", "handle", "map", "value", "signal")
    good = good or words[:1] and words[0] in ("data", "packet", "label", "true", "none")
    return coloured(" ".join(words), "green" if good else "red", colours)


def check_line(told: Told, colours: bool) -> str:
    """A check of an object call."""
    verdict = told.verdict
    asked = f"{verdict.subject} {verdict.object} {verdict.modes}"
    return f"{'':8}check {asked}: {answer_text(verdict.answer, colours)}: {told.reason}"


def text_lines(line: Line, colours: bool) -> list[str]:
    """A call and its checks, as they are printed."""
    call = line.call
    why = f": {line.reason}" if line.reason else ""
    said = answer_text(line.answer, colours) if line.answer else coloured("not run", "red", colours)
    lines = [f"{call.line:6}  {call.shown}: {said}{why}"]
    if call.verb != "ask":
        lines += [check_line(told, colours) for told in line.checks]
    if line.note:
        lines.append(f"{'':8}" + coloured(f"note: {line.note}", "yellow", colours))
    return lines


def check_object(told: Told) -> dict:
    """A check as JSON."""
    verdict = told.verdict
    rule = {"modes": text_of(told.rule.modes), "place": told.rule.place} if told.rule else None
    return {
        "subject": verdict.subject,
        "object": verdict.object,
        "modes": verdict.modes,
        "allowed": verdict.allowed,
        "case": verdict.case,
        "over": verdict.over or None,
        "rule": rule,
        "reason": told.reason,
    }


def line_object(line: Line) -> dict:
    """A call as JSON."""
    call = line.call
    return {
        "line": call.line,
        "task": call.task,
        "verb": call.verb,
        "words": [word.text for word in call.words[2:]],
        "version": line.version,
        "answer": " ".join(line.answer),
        "refused": line.refused,
        "denied": line.denied,
        "reason": line.reason,
        "checks": [check_object(told) for told in line.checks],
        "note": line.note or None,
    }


def explain(program: Program, name: str, as_json: bool) -> int:
    """Explains the run of a file. The status is that of the program, or 1 where the explanation and the record
    differ."""
    try:
        run = run_file(program, name)
    except OSError as error:
        return say_cannot_read(name, error)
    except RecordError as error:
        say(f"smack: {error}")
        return 1
    if run.account is None:
        say(run.why_refused())
        return run.outcome.status
    print_account(run, as_json)
    for what in run.account.differences:
        say(f"smack: the explanation and the record differ: {what}")
    return 1 if run.account.differences else 0


def print_account(run: Run, as_json: bool) -> None:
    """Prints each call."""
    colours = has_colours(sys.stdout)
    for line in run.account.lines:
        if as_json:
            print(json.dumps(line_object(line)))
        else:
            print("\n".join(text_lines(line, colours)))
