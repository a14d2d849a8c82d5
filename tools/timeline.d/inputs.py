"""What is read beside EXPLAINED: the trace, for the events of the lost reports, and the configuration, for labels."""
from __future__ import annotations

import json
from pathlib import Path
from typing import Optional

from explained import Run, Unreadable
from judging import faults_of_text

SCHEMA = Path(__file__).resolve().parents[2] / "docs" / "config.schema.json"

LABELS = {"OFF": "off", "BRIEF": "brief", "BRIEF_BYPASSING_FILTERS": "brief, bypassing",
          "DETAILED_BYPASSING_FILTERS": "detailed, bypassing"}


def number(value: int) -> str:
    """A number as people read it."""
    if value > 2**20 and value & (value - 1) == 0:
        return f"2^{value.bit_length() - 1}"
    return f"{value:,}"


# ---- TRACE


def calls_of(trace: str) -> dict[tuple[int, int], Optional[tuple[int, int]]]:
    """The calls of a trace, by caller and number: event and count of a report, and nothing of a control."""
    calls, made = {}, {}
    lines = trace.split("\n")
    if lines[-1]:
        raise Unreadable(f"line {len(lines)}: it does not end: the file was cut")
    for at, line in enumerate(lines[:-1], 1):
        word, *words = line.split(" ")
        if word in ("N", "E"):
            continue
        try:
            caller = int(words[0])
            call = (int(words[1]), int(words[2])) if word == "R" else None
        except (IndexError, ValueError):
            raise Unreadable(f"line {at}: this is no line of a trace") from None
        if word not in ("R", "S", "M"):
            raise Unreadable(f"line {at}: this is no line of a trace")
        calls[caller, made.get(caller, 0)] = call
        made[caller] = made.get(caller, 0) + 1
    return calls


def lost_in(run: Run, trace: str) -> list[list[tuple[int, int]]]:
    """The lost reports, each by event and count, and before which turn they are counted.

    The journal tells how many event buffers had been given back when a call was lost, and each turn tells how many
    reports were lost since the turn before. So the lost reports, in the order of the first, fill the numbers of the
    second; those of a journal that tells fewer are put before its last turn.
    """
    calls = calls_of(trace)
    for _, item in run.items():
        if item.call and calls.get(item.call) != (item.event, item.count):
            caller, call = item.call
            raise Unreadable(f"it is not that of the run: call {call} of caller {caller} is not the report that the run has")
    lost = []
    for loss in sorted(run.losses, key=lambda loss: loss.given):
        if (loss.caller, loss.call) not in calls:
            raise Unreadable(f"it is not that of the run: it has no call {loss.call} of caller {loss.caller}")
        lost.append(calls[loss.caller, loss.call])
    reports = [report for report in lost if report]
    if any(event >= len(run.accounts) for event, _ in reports):
        raise Unreadable("it is not that of the run: it has further events")
    by_turn, at = [], 0
    for turn in run.turns:
        by_turn.append(reports[at : at + turn.lost_reports])
        at += turn.lost_reports
    if by_turn:
        by_turn[-1] += reports[at:]
    return by_turn


# ---- CONFIG


def settings_of(event: dict) -> str:
    """What an event's way through the filters has, in a few words."""
    words = [LABELS[event["mode"]]] if event.get("mode", "DETAILED") in LABELS else []
    if event.get("block"):
        words.append("block " + ", ".join(map(str, event["block"])))
    if event.get("nth", 1) != 1:
        words.append(f"nth {event['nth']}")
    if event.get("aggregate"):
        words.append(f"join {number(event['aggregate']['interval'])}")
    if event.get("threshold"):
        words.append(f"from {event['threshold']['count']} in {number(event['threshold']['interval'])}")
    if not event.get("send", True):
        words.append("not sent")
    return " · ".join(words)


def refuse_fraction(digits: str) -> None:
    raise ValueError(f"{digits} is no whole number")


def configuration_of(text: str) -> dict:
    """The configuration of this text: it fits docs/config.schema.json, and each of its numbers is written as a whole one."""
    try:
        found = faults_of_text(json.loads(SCHEMA.read_text()), text)
        if found:
            raise Unreadable("it is no configuration: " + " ".join(found[0].split()))
        return json.loads(text, parse_float=refuse_fraction)
    except (ValueError, RecursionError):
        raise Unreadable("it is no configuration") from None


class Labels:
    """What stands before the lanes: the events' settings, and the state at the start."""

    def __init__(self, run: Run, config: Optional[str]):
        self.settings = [""] * len(run.accounts)
        self.state: Optional[int] = None
        if config is not None:
            self.take(run, configuration_of(config))

    def take(self, run: Run, config: dict) -> None:
        events = config["events"]
        theirs = [(event["id"], event["sensor"]) for event in events]
        if theirs != [(account.id, account.sensor) for account in run.accounts]:
            raise Unreadable("it is not that of the run: its events are others")
        self.state = config.get("state", 0)
        self.settings = [settings_of(event) for event in events]
        for name, event in (config.get("internal") or {}).items():
            if event is not None and event >= len(events):
                raise Unreadable(f"it is no configuration: /internal/{name}: there is no event {event}")
            if event is not None:
                words = "tells " + name.replace("_", " ")
                self.settings[event] = " · ".join(filter(None, (words, self.settings[event])))
