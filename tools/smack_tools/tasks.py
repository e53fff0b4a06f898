"""What the tasks of a script are allowed besides the rules: their label, privileges, self rules and relabel
list, each change with its place."""

from dataclasses import dataclass, field, replace
from typing import Optional

from .record import Entry, Verdict
from .rules import Rule, Rules, modes_of

ADMIN = "mac-admin"
OVERRIDE = "mac-override"


@dataclass
class Task:
    """A task. Its label is None where an exec gave it one that is not known here."""

    label: Optional[str] = "_"
    dropped: dict[str, str] = field(default_factory=dict)
    self_rules: dict[tuple[str, str], Rule] = field(default_factory=dict)
    relabels: list[str] = field(default_factory=list)
    ended: bool = False

    def effective(self, capability: str, rules: Rules) -> Optional[bool]:
        """Whether a capability that onlycap governs is effective; None where that is not known."""
        return False if capability in self.dropped else rules.may_use(self.label)

    def why_not(self, capability: str, rules: Rules) -> str:
        """Why a capability is not effective."""
        name = "CAP_" + capability.upper().replace("-", "_")
        if capability in self.dropped:
            return f"{name} was dropped in {self.dropped[capability]}"
        listed = " ".join(rules.only)
        return f"{name} is held and not effective: onlycap has {listed} since {rules.only_place}, not {self.label}"

    def child(self) -> "Task":
        """What a fork gives to its child."""
        return replace(
            self, dropped=dict(self.dropped), self_rules=dict(self.self_rules), relabels=list(self.relabels)
        )

    def take(self, entry: Entry, places: list[str], rules: Rules) -> None:
        """The effect of an object call on the task itself. The places are those of the lines of its text."""
        verb, words = entry.words[0], entry.words[1:]
        if entry.reply[0] != "ok":
            return
        if verb == "relabel":
            if not self.effective(ADMIN, rules):
                self.relabels = []
            self.label = words[0]
        elif verb == "drop":
            self.dropped.setdefault(words[0], places[0])
        elif verb == "exec":
            self.label = None
        elif verb == "exit":
            self.ended = True
        elif verb == "relabels":
            self.relabels = list(words[1:])
        elif verb == "self":
            for at in range(int(words[0])):
                subject, object_, modes = words[1 + 3 * at : 4 + 3 * at]
                self.self_rules[subject, object_] = Rule(modes_of(modes), places[min(at, len(places) - 1)])

    def learn(self, check: Verdict) -> None:
        """An exec may give another label; the next check of the task says which."""
        if self.label is None:
            self.label = check.subject

    def restricts(self, check: Verdict) -> bool:
        """Whether a self rule lacks a mode that is asked for."""
        rule = self.self_rules.get((check.subject, check.object))
        return rule is not None and not modes_of(check.modes) <= rule.modes
