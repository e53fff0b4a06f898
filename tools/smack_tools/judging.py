"""What a verdict is by the rules as they are folded here. It serves one end: to be compared with the verdict
of the record."""

from .record import Entry, Verdict
from .rules import Rules
from .tasks import OVERRIDE, Task

LAST_CASE = 11


def asked_answer(rules: Rules, verdict: Verdict) -> tuple[str, ...]:
    """The answer to a question, by cases 1 to 7."""
    allowed, case = rules.cases(verdict.subject, verdict.object, verdict.modes)
    return ("allow" if allowed else "deny", str(case))


def check_answer(rules: Rules, entry: Entry, check: Verdict, task: Task) -> tuple[str, ...]:
    """The answer to a check of an object call, with the self rules and the privilege of the task that asks.
    What the program alone knows, the attributes of files, is taken from the check; so is a case that is not
    known here."""
    decided = check.over or check.case
    if check.case > LAST_CASE:
        return check.answer
    allowed, case = first_answer(rules, entry, check, task, decided)
    if not allowed and overrides(rules, entry, check, task, decided):
        return ("allow", "9", "over", str(case))
    return ("allow" if allowed else "deny", str(case))


def first_answer(rules: Rules, entry: Entry, check: Verdict, task: Task, decided: int) -> tuple[bool, int]:
    """The answer and its case before any privilege."""
    if decided == 10:
        return check.subject == check.object and rules.ptrace > 0, 10
    allowed, case = rules.cases(check.subject, check.object, check.modes)
    if decided == 11:
        return (check.allowed and not check.over) or allowed, 11
    if allowed and entry.words[0] != "inject" and task.restricts(check):
        return False, 8
    return allowed, case


def overrides(rules: Rules, entry: Entry, check: Verdict, task: Task, decided: int) -> bool:
    """Whether the task's privilege turns a denial. A packet from outside has none."""
    if entry.words[0] == "inject":
        return False
    if decided == 10:
        return rules.ptrace == 1 and "sys-ptrace" not in task.dropped
    known = task.effective(OVERRIDE, rules)
    return check.over > 0 if known is None else known
