"""smack suggest: the rules that the denials of a run ask for, tried out by the program itself."""

from dataclasses import dataclass, field
from typing import Optional

from .account import Line
from .expectations import is_met, miss_of
from .program import Program
from .reasons import Told
from .record import RecordError
from .rules import modes_of, text_of
from .runs import Run, read_file, run_script, say_cannot_read
from .screen import say
from .text_faults import counted

MOST_ROUNDS = 100
MOST_LINES_SHOWN = 20
Pair = tuple[str, str]


@dataclass
class Wanted:
    """The rule that a pair needs, and the lines of the calls that asked for it."""

    modes: frozenset[str]
    lines: list[int] = field(default_factory=list)
    hint: str = ""


@dataclass
class Plan:
    """The rules wanted so far, and before which calls, by place, which of them have to be loaded."""

    wanted: dict[Pair, Wanted] = field(default_factory=dict)
    loads: dict[int, set[Pair]] = field(default_factory=dict)
    closed: set[int] = field(default_factory=set)

    def want(self, pair: Pair, line: int, told: Told) -> bool:
        """Wants what a denied call in this line asked for. Whether that is more than before."""
        wanted = self.wanted.setdefault(pair, Wanted(frozenset()))
        stands = told.rule.modes if told.rule else frozenset()
        modes = wanted.modes | stands | modes_of(told.verdict.modes)
        more = modes != wanted.modes
        wanted.modes = modes
        wanted.hint = wanted.hint or told.hint
        if line not in wanted.lines[-1:]:
            wanted.lines.append(line)
        return more

    def load(self, pair: Pair, before: int) -> bool:
        """Loads the rule of a pair before the call at this place. Whether it was not loaded there before."""
        pairs = self.loads.setdefault(before, set())
        new = pair not in pairs
        pairs.add(pair)
        return new

    def text(self, pair: Pair) -> str:
        """The rule of a pair as load2 takes it."""
        return f"{pair[0]} {pair[1]} {text_of(self.wanted[pair].modes)}"


def is_wanted_denial(line: Line) -> bool:
    """Whether the script itself expects this denial."""
    return line.denied and line.call.expected is not None and is_met(line.call.expected, line)


def denials(run: Run) -> list[tuple[int, Line]]:
    """The denied calls, by their place, but for those that the script expects."""
    lines = enumerate(run.account.lines)
    return [(place, line) for place, line in lines if line.denied and not is_wanted_denial(line)]


def with_rules(run: Run, plan: Plan) -> tuple[bytes, list[Optional[int]]]:
    """The script with the rules loaded before the calls that asked, and for each of its calls the place of the
    call that it is in the first script, or None where it is a load."""
    lines: list[str] = []
    places: list[Optional[int]] = []
    done = 0
    for place, call in enumerate(run.script.calls):
        pairs = sorted(plan.loads.get(place, ()))
        if pairs:
            lines.append(f"{run.account.writers[place]} write load2 {len(pairs)}")
            lines += map(plan.text, pairs)
            places.append(None)
        lines += run.script.lines[done : call.line + len(call.text)]
        done = call.line + len(call.text)
        places.append(place)
    text = "\n".join(lines + run.script.lines[done:]) + "\n"
    return text.encode("utf-8", "surrogateescape"), places


def last_writes(run: Run) -> list[Optional[int]]:
    """For each call the last place, up to its own, before which some task may write rules."""
    last, found = None, []
    for place, writer in enumerate(run.account.writers):
        last = place if writer else last
        found.append(last)
    return found


def add_denials(plan: Plan, run: Run, tried: Run, places: list[Optional[int]]) -> bool:
    """Adds the rules that the denials of a run ask for, each loaded before the first call that asked. Whether
    anything is new that can be tried."""
    new, loaded = False, set()
    open_places = last_writes(run)
    for at, line in denials(tried):
        told, place = line.checks[-1], places[at]
        if not told.mends or place is None:
            continue
        pair = (told.verdict.subject, told.verdict.object)
        more = plan.want(pair, run.script.calls[place].line, told)
        before = open_places[place]
        if before is None:
            plan.closed.add(place)
        else:
            first = pair not in loaded and plan.load(pair, before)
            loaded.add(pair)
            new = new or first or more
    return new


def make_plan(program: Program, run: Run) -> tuple[Plan, Run, list[Optional[int]]]:
    """Runs the script with the rules that the denials ask for, until no further rule helps. A call that passes
    its first check may be denied at its next one, and a later write may replace a rule, so this takes several
    runs."""
    plan, tried = Plan(), run
    places: list[Optional[int]] = list(range(len(run.script.calls)))
    for _ in range(MOST_ROUNDS):
        if not add_denials(plan, run, tried, places):
            break
        data, places = with_rules(run, plan)
        lines = [0 if place is None else run.script.calls[place].line for place in places]
        tried = run_script(program, run.name, data, lines)
        if tried.account is None:
            raise RecordError("the script with these rules was refused: " + tried.outcome.line)
    return plan, tried, places


def why_left(line: Line, closed: bool) -> str:
    """Why a denial stays."""
    told = line.checks[-1]
    case = told.verdict.case
    if case == 1:
        return "case 1: no rule lets * do anything"
    if case == 8:
        return f"case 8: a self rule only restricts, and no rule goes over it: {told.reason}"
    if case == 10:
        return f"case 10: no rule goes over the ptrace policy: {told.reason}"
    if closed:
        return "no task may write rules before it"
    return told.reason


def lines_text(lines: list[int]) -> str:
    """The lines that asked, in words."""
    shown = ", ".join(map(str, lines[:MOST_LINES_SHOWN]))
    more = f" and {len(lines) - MOST_LINES_SHOWN} more" if len(lines) > MOST_LINES_SHOWN else ""
    return ("line " if len(lines) == 1 else "lines ") + shown + more


def report(run: Run, plan: Plan, tried: Run, places: list[Optional[int]]) -> None:
    """Prints the rules, and what the script does with them."""
    for pair in sorted(plan.wanted):
        wanted = plan.wanted[pair]
        asked = lines_text(sorted(set(wanted.lines)))
        print(f"{plan.text(pair)}  # asked by {asked}" + (f"; {wanted.hint}" if wanted.hint else ""))
    left = denials(tried)
    known = sum(map(is_wanted_denial, run.account.lines))
    expected = f"; {counted(known, 'denial')} that the script expects not counted" if known else ""
    rules = counted(len(plan.wanted), "rule")
    print(f"# with {rules}: {len(left)} of {counted(len(denials(run)), 'denial')} left{expected}")
    for at, line in left:
        place = places[at]
        number = run.script.calls[place].line if place is not None else 0
        print(f"#   line {number}: {line.call.shown}: {why_left(line, place in plan.closed)}")
    for at, line in enumerate(tried.account.lines):
        place = places[at]
        if place is not None and miss_of(line) and not miss_of(run.account.lines[place]):
            call, answer = run.script.calls[place], " ".join(line.answer)
            print(f"#   line {call.line}: with these rules {call.shown} no longer answers as expected: {answer}")


def suggest(program: Program, name: str, as_load2: bool) -> int:
    """Suggests rules for a file. The status is that of the program."""
    try:
        data = read_file(name)
    except OSError as error:
        return say_cannot_read(name, error)
    try:
        run = run_script(program, name, data)
        if run.account is None:
            say(run.why_refused())
            return run.outcome.status
        plan, tried, places = make_plan(program, run)
    except RecordError as error:
        say(f"smack: {error}")
        return 1
    if as_load2:
        for pair in sorted(plan.wanted):
            print(plan.text(pair))
    else:
        report(run, plan, tried, places)
    return 0
