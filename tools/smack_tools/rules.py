"""The rules and settings of a version, each rule with the line that last wrote it, and cases 1 to 7. The
definitions are in docs/SMACK.md; what is said here is compared with every verdict of the program."""

from dataclasses import dataclass, field
from typing import Optional

READS = frozenset("rx")


@dataclass(frozen=True)
class Rule:
    """The modes of a pair, the place that last wrote them, and whether that was a revoke."""

    modes: frozenset[str]
    place: str
    revoked: bool = False


def modes_of(text: str) -> frozenset[str]:
    """The modes of a printed set."""
    return frozenset(text) - {"-"}


def text_of(modes: frozenset[str]) -> str:
    """A set of modes as it is printed."""
    return "".join(letter for letter in "rwxatbl" if letter in modes) or "-"


@dataclass
class Rules:
    """The newest version. Places are those of lines, in words."""

    version: int = 0
    rules: dict[tuple[str, str], Rule] = field(default_factory=dict)
    by_subject: dict[str, set[str]] = field(default_factory=dict)
    by_object: dict[str, set[str]] = field(default_factory=dict)
    labels: set[str] = field(default_factory=set)
    only: list[str] = field(default_factory=list)
    only_place: str = ""
    ptrace: int = 0

    def apply(self, write: tuple[str, ...], place: str) -> None:
        """Takes one write of a batch, as the record prints it."""
        kind, words = write[0], write[1:]
        if kind == "set":
            self.put(words[0], words[1], Rule(modes_of(words[2]), place))
        elif kind == "change":
            self.put(words[0], words[1], self.changed(words, place))
        elif kind == "revoke":
            for other in self.by_subject.get(words[0], ()):
                self.rules[words[0], other] = Rule(frozenset(), place, True)
        elif kind == "only-clear":
            self.only, self.only_place = [], place
        elif kind == "only-add":
            self.only.append(words[0])
        elif kind == "ptrace":
            self.ptrace = int(words[0])

    def put(self, subject: str, object_: str, rule: Rule) -> None:
        """The pair has this rule from now on."""
        self.rules[subject, object_] = rule
        self.by_subject.setdefault(subject, set()).add(object_)
        self.by_object.setdefault(object_, set()).add(subject)
        self.labels.update((subject, object_))

    def changed(self, words: tuple[str, ...], place: str) -> Rule:
        """The rule of a pair behind `change S O ALLOW DENY`."""
        old = self.rule(words[0], words[1])
        modes = old.modes if old else frozenset()
        return Rule((modes | modes_of(words[2])) - modes_of(words[3]), place)

    def rule(self, subject: str, object_: str) -> Optional[Rule]:
        """The rule of a pair, where there is one."""
        return self.rules.get((subject, object_))

    def cases(self, subject: str, object_: str, modes: str) -> tuple[bool, int]:
        """The answer of cases 1 to 7, and the first case that applies."""
        wanted = modes_of(modes)
        rule = self.rule(subject, object_)
        ordered = (
            (subject == "*", False),
            (subject == "^" and wanted <= READS, True),
            (object_ == "_" and wanted <= READS, True),
            (object_ == "*", True),
            (subject == object_, True),
            (rule is not None and wanted <= rule.modes, True),
            (True, False),
        )
        case = next(number for number, (applies, _) in enumerate(ordered, 1) if applies)
        return ordered[case - 1][1], case

    def may_use(self, label: Optional[str]) -> Optional[bool]:
        """Whether the onlycap list lets a task with this label use its privileges; None where both matter
        and the label is not known."""
        if not self.only:
            return True
        return None if label is None else label in self.only
