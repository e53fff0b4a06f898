"""Why a verdict is as it is, in words: the rule that stands, what it lacks, or which label is spelled wrong."""

from dataclasses import dataclass
from typing import Optional

from . import tables
from .record import Verdict
from .rules import Rule, Rules, modes_of, text_of
from .spelling import nearest
from .tasks import Task


@dataclass(frozen=True)
class Told:
    """A verdict, its reason, and the rule of its pair. `mends` says whether a rule for the pair can turn a
    denial, and `hint` names a label that may be spelled wrong."""

    verdict: Verdict
    reason: str
    rule: Optional[Rule]
    mends: bool
    hint: str = ""


class Reasons:
    """Gives reasons by the newest version of the rules."""

    def __init__(self, rules: Rules) -> None:
        self.rules = rules
        # By a label and the number of labels that there are, since these only grow.
        self.near: dict[tuple[str, int], Optional[str]] = {}

    def tell(self, verdict: Verdict, task: Optional[Task]) -> Told:
        """A verdict with its reason. The task is that of an object call."""
        rule = self.rules.rule(verdict.subject, verdict.object)
        case = verdict.over or verdict.case
        hint = self.hint(verdict) if case in (7, 11) and rule is None else ""
        reason = self.reason(verdict, case, rule, task) + (f": {hint}" if hint else "")
        if verdict.over == 10:
            reason = "CAP_SYS_PTRACE goes over the ptrace policy"
        elif verdict.over:
            reason = f"CAP_MAC_OVERRIDE goes over case {verdict.over}: {reason}"
        mends = not verdict.allowed and case in (7, 11) and verdict.subject != "*"
        return Told(verdict, reason, rule, mends, hint)

    def reason(self, verdict: Verdict, case: int, rule: Optional[Rule], task: Optional[Task]) -> str:
        """Why a case decided."""
        if case in tables.CASES:
            return tables.CASES[case]
        if case == 6 and rule:
            return f"rule {text_of(rule.modes)} of {rule.place}"
        if case == 7:
            return self.missing(verdict, rule)
        if case == 8 and task:
            own = task.self_rules.get((verdict.subject, verdict.object))
            return lacks("self rule", own, verdict) if own else "a self rule"
        if case == 10:
            equal = ", as these are" if verdict.allowed else ""
            return f"ptrace policy {self.rules.ptrace} wants equal labels{equal}"
        if case == 11:
            return "the mapping rule of SMACK64MMAP" + ("" if verdict.allowed else f": {self.missing(verdict, rule)}")
        return f"case {case}"

    def missing(self, verdict: Verdict, rule: Optional[Rule]) -> str:
        """What a denial by case 7 wants: a mode of the rule that stands, or a rule."""
        if rule:
            return lacks("rule", rule, verdict)
        return "no rule" if self.rules.rules else "no rule is loaded before this line"

    def hint(self, verdict: Verdict) -> str:
        """A label of a question without a rule that may be spelled wrong; else nothing."""
        if not self.rules.rules:
            return ""
        for label in (verdict.subject, verdict.object):
            if label not in self.rules.labels and label not in tables.PREDEFINED:
                near = self.near_label(label)
                return f"label {label} stands in no rule" + (f"; {near} does" if near else "")
        return self.near_rule(verdict.subject, verdict.object)

    def near_label(self, label: str) -> Optional[str]:
        """A label of the rules that is spelled almost like this one."""
        key = (label, len(self.rules.labels))
        if key not in self.near:
            self.near[key] = nearest(label, self.rules.labels)
        return self.near[key]

    def near_rule(self, subject: str, object_: str) -> str:
        """A rule whose pair is spelled almost like this one."""
        near = nearest(object_, self.rules.by_subject.get(subject, ()), most=1)
        if near:
            return f"{self.rules.rules[subject, near].place} has one for {subject} {near}"
        near = nearest(subject, self.rules.by_object.get(object_, ()), most=1)
        return f"{self.rules.rules[near, object_].place} has one for {near} {object_}" if near else ""


def lacks(what: str, rule: Rule, verdict: Verdict) -> str:
    """A rule that stands, and what it lacks."""
    if rule.revoked:
        return f"the {what} was emptied by the revoke of {rule.place}"
    missing = text_of(modes_of(verdict.modes) - rule.modes)
    return f"{what} {text_of(rule.modes)} of {rule.place} lacks {missing}"
