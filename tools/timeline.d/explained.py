"""What `idsm explain` puts, read into lists, and compared with its own accounts."""
from __future__ import annotations

import re
from dataclasses import dataclass, field
from typing import Iterator, Optional

# What becomes of an item, in the order in which a bar is stacked: what went furthest lies lowest.
FATES = ("sent", "unsent", "rate", "traffic", "aggregate", "threshold", "nth", "block", "mode")
# The numbers of an account, in the order of its line.
COLUMNS = ("came", "closed", "mode", "block", "nth", "aggregate", "threshold", "unsent", "rate", "traffic", "sent",
           "open", "stored", "missing")
MODES = ("OFF", "BRIEF", "DETAILED", "BRIEF_BYPASSING_FILTERS", "DETAILED_BYPASSING_FILTERS")

# A number of idsm is at most 2^62, which has 19 digits.
N = "(0|[1-9][0-9]{0,18})"
FATE = f"({'|'.join(FATES)}) (stored|-)"
FORMS = {
    "turn": re.compile(f"T {N} {N} {N} {N}"),
    "given": re.compile(f"([WI]) {N} {N} {FATE}"),
    "report": re.compile(f"R {N} {N} {N} {N} (?:-|[0-9a-f]{{16}}) (-|{N}:{N}:[0-9a-f]+|![0-9.]*) {FATE}"),
    "state": re.compile(f"C {N} {N} S {N}"),
    "mode": re.compile(f"C {N} {N} M {N} ({'|'.join(MODES)})"),
    "loss": re.compile(f"L {N} {N} {N}"),
    "account": re.compile(f"A {N} {N} {N} " + " ".join(f"{name} {N}" for name in COLUMNS)),
}
REFUSAL = re.compile(r"(usage|cannot read|too long|bad config|bad journal line|no memory)\b.*")


class Unreadable(Exception):
    """Why a file is not what it should be."""


@dataclass(frozen=True)
class Turn:
    tick: int
    lost_reports: int
    lost_contexts: int
    limited: int


@dataclass(frozen=True)
class Item:
    """What came or what a window gave (`kind` W), and what became of it."""
    event: int
    kind: str
    count: int
    fate: str
    stored: bool
    missing: bool = False
    call: Optional[tuple[int, int]] = None


@dataclass(frozen=True)
class State:
    state: int


@dataclass(frozen=True)
class Mode:
    event: int
    mode: str


@dataclass(frozen=True)
class Loss:
    """A call that found no event buffer, when so many had been given back."""
    caller: int
    call: int
    given: int


@dataclass
class Account:
    id: int
    sensor: int
    numbers: dict[str, int]

    def __getitem__(self, name: str) -> int:
        return self.numbers[name]


@dataclass
class Run:
    turns: list[Turn] = field(default_factory=list)
    # What happened in the turns, with the number of the turn, in the journal's order.
    steps: list[tuple[int, object]] = field(default_factory=list)
    losses: list[Loss] = field(default_factory=list)
    # The least call of each caller that has a line.
    first: dict[int, int] = field(default_factory=dict)
    accounts: list[Account] = field(default_factory=list)

    def items(self) -> Iterator[tuple[int, Item]]:
        return ((turn, step) for turn, step in self.steps if isinstance(step, Item))

    def total(self, name: str) -> int:
        return sum(account[name] for account in self.accounts)

    def lost_reports(self) -> int:
        return sum(turn.lost_reports for turn in self.turns)

    def lost_contexts(self) -> int:
        return sum(turn.lost_contexts for turn in self.turns)


def step_of(kind: str, words: tuple[str, ...]) -> object:
    """What a line inside a turn tells."""
    if kind == "given":
        return Item(int(words[1]), words[0], int(words[2]), words[3], words[4] == "stored")
    if kind == "report":
        caller, call, event, count = map(int, words[:4])
        return Item(event, "R", count, words[-2], words[-1] == "stored", words[4].startswith("!"), (caller, call))
    return State(int(words[2])) if kind == "state" else Mode(int(words[2]), words[3])


def take(run: Run, kind: str, words: tuple[str, ...]) -> Optional[str]:
    """Takes a line into the run, or says why it cannot stand where it stands."""
    if run.accounts and kind != "account":
        return "an account stands before it, and all accounts stand at the end"
    if kind in ("report", "state", "mode", "loss"):
        caller, call = map(int, words[:2])
        run.first[caller] = min(call, run.first.get(caller, call))
    if kind == "turn":
        turn = Turn(*map(int, words))
        if run.turns and turn.tick < run.turns[-1].tick:
            return "its tick is below that of the turn before"
        run.turns.append(turn)
    elif kind == "loss":
        run.losses.append(Loss(*map(int, words)))
    elif kind == "account":
        event, id_, sensor, *numbers = map(int, words)
        if event != len(run.accounts):
            return f"the account of event {len(run.accounts)} should stand here"
        run.accounts.append(Account(id_, sensor, dict(zip(COLUMNS, numbers))))
    elif not run.turns:
        return "no turn begins before it"
    else:
        run.steps.append((len(run.turns) - 1, step_of(kind, words)))
    return None


def fault_of(line: str) -> str:
    """Why a line is none of what `explain` puts."""
    if REFUSAL.fullmatch(line):
        return f"idsm refused the run: {line}"
    if re.match(r"R( [^ ]+){6}$", line):
        return "it does not tell what became of the report: this is a journal, and `idsm explain CONFIG JOURNAL` tells it"
    return "`idsm explain` puts no such line"


def lost_numbers(run: Run) -> Iterator[str]:
    """Where an account is not what the lines above it tell, or does not add up."""
    told = [dict.fromkeys(COLUMNS, 0) for _ in run.accounts]
    for event in (step.event for _, step in run.steps if isinstance(step, (Item, Mode))):
        if event >= len(told):
            yield f"there is no account of event {event}"
            return
    for _, item in run.items():
        numbers = told[item.event]
        numbers["closed" if item.kind == "W" else "came"] += 1
        numbers[item.fate] += 1
        numbers["stored"] += item.stored
        numbers["missing"] += item.missing
        numbers["open"] = 0 if item.kind == "W" else numbers["open"] + (item.fate == "aggregate")
    for event, (account, numbers) in enumerate(zip(run.accounts, told)):
        for name in COLUMNS:
            if account[name] != numbers[name]:
                yield f"the account of event {event} has {name} {account[name]}, and the lines above it tell {numbers[name]}"
        if account["came"] + account["closed"] != sum(account[fate] for fate in FATES):
            yield f"the account of event {event} does not add up"


def late_callers(run: Run) -> list[tuple[int, int]]:
    """The callers whose first line is not that of their first call, with its call."""
    return [(caller, call) for caller, call in sorted(run.first.items()) if call > 0]


def read(text: str) -> Run:
    """The run of which `idsm explain` put this text."""
    run = Run()
    lines = text.split("\n")
    for number, line in enumerate(lines[:-1], 1):
        found = next(((kind, match) for kind, form in FORMS.items() if (match := form.fullmatch(line))), None)
        fault = take(run, found[0], found[1].groups()) if found else fault_of(line)
        if fault:
            raise Unreadable(f"line {number}: {fault}")
    if lines[-1]:
        raise Unreadable(f"line {len(lines)}: it does not end: the file was cut")
    if not run.accounts:
        raise Unreadable("it has no accounts: the file was cut, or is none of `idsm explain`")
    for fault in lost_numbers(run):
        raise Unreadable(fault)
    return run
