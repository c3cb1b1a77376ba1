#!/usr/bin/env python3
"""Random live boards against runs of their scripts.

Each board of FOLDER.. is asked random requests, right and wrong ones, by `serve`. What was given is written as a script, and `run`
of that script has to have the same wave, the same bytes and the same report, and so has another live board that runs in other
legs, without conditions. The levels that were answered, the cycle in which each run ended and the number of the condition that
held there are worked out anew, from the wave and from the bytes that the other live board had sent by that cycle and by the one
before it.

The live boards of a folder of `--far` go on past 10 s; the run of their script is the first part of them. A board of its own sleeps
for ever and shows a button on a pin. Its answers and its wave are known beforehand, for more values than a script has lines, past
10 s and up to the end of a board's time. Ends with 1 where one differs."""
from __future__ import annotations

import argparse
import bisect
import json
import os
import pathlib
import random
import re
import subprocess
import sys
import tempfile
from typing import NamedTuple

GREATEST = {
    "wokwi-pushbutton": 1,
    "wokwi-slide-switch": 1,
    "wokwi-dip-switch-8": 255,
    "wokwi-potentiometer": 1023,
    "wokwi-membrane-keypad": 65535,
}
PINS = [*map(str, range(14)), "A0", "A1", "A2", "A3", "A4", "A5"]
WRONG = {
    "": 100,
    "fly": 100,
    "run": 101,
    "run 1 2": 101,
    "level": 101,
    "level uno.3 1": 101,
    "report now": 101,
    "set": 101,
    "7 set a 1": 101,
    "run x": 102,
    "run 999999999999999": 102,
    "data 2304 1": 102,
    "level nobody.77": 103,
    "press nobody": 104,
    "x" * 1025: 107,
}
ACT = re.compile(r"(?:(\d+)(us|cy) )?((?:press|release|set) .*)")
MOST_SENT = 65_536  # bytes of a block
MOST_CYCLES = 10**13
MOST_LINES, MOST_SCRIPTED = 4096, 160_000_000  # a script's lines, and the cycles of a run under it
SLEEPER = [0xE085, 0xBF83, 0x9A5A, 0x9588, 0xCFFE]  # power-down, a pull-up on pin 2, and sleep again and again
PULLED = 3  # the first cycle in which pin 2 is pulled up
SLEEPER_PARTS = {
    "version": 1,
    "parts": [{"type": "wokwi-arduino-uno", "id": "uno"}, {"type": "wokwi-pushbutton", "id": "btn1"}],
    "connections": [["uno:2", "btn1:1.l", "", []], ["btn1:2.l", "uno:GND.1", "", []]],
}
Changes = dict[str, list[tuple[int, str]]]


class Answer(NamedTuple):
    """An answer: `ok` or `no`, its cycle, the words behind its count or number, and its block."""

    kind: str
    cycle: int
    words: list[str]
    block: bytes


def requests_for(parts: list[dict[str, str]], pick: random.Random, far: bool) -> list[str]:
    """Random requests for a board of these parts, past 10 s if it is far; the last run is without conditions and ends in a whole
    microsecond."""
    settable = [(part["id"], GREATEST[part["type"]]) for part in parts if part["type"] in GREATEST]
    uno = next(part["id"] for part in parts if part["type"] == "wokwi-arduino-uno")
    now, made = 0, []
    for _ in range(pick.randrange(4, 14)):
        kind = pick.random()
        pin = f"{uno}.{pick.choice(PINS)}"
        if kind < 0.3 and settable:
            part, most = pick.choice(settable)
            time = pick.choice(
                ["", "", f"{now + pick.randrange(200_000)}cy ", f"{now // 16 + pick.randrange(9000)}us "]
            )
            made.append(f"{time}set {part} {pick.randrange(most + 1)}")
        elif kind < 0.42:
            made.append(f"level {pin}")
        elif kind < 0.46:
            made.append(pick.choice(["report", "wave"]))
        elif kind < 0.5:
            made.append(pick.choice([*WRONG]))
        else:
            conditions = [
                f"edge {pin}",
                f"level {pin} {pick.choice('01z')}",
                f"sent {pick.randrange(40)}",
            ]
            now += pick.choice([pick.randrange(1, 400), pick.randrange(1, 40_000), pick.randrange(1, 320_000)])
            made.append(" ".join([f"run {now}", *pick.sample(conditions, pick.choice([0, 0, 1, 2, 3]))]))
    if far:
        made += [f"set {part} 0" for part, _ in settable]
        while now < 2 * MOST_SCRIPTED:
            # a value for a short while, and then a long time without it
            part, most = pick.choice(settable)
            now += pick.randrange(1, 400_000)
            made += [f"set {part} {pick.randrange(most + 1)}", f"run {now}", f"set {part} 0"]
            now += pick.randrange(400_000, MOST_SCRIPTED)
            conditions = [f"edge {uno}.{pick.choice(PINS)}", f"sent {pick.randrange(200)}", f"level {uno}.13 1"]
            made += [" ".join([f"run {now}", *pick.sample(conditions, pick.randrange(3))]), f"run {now + 1}"]
            now += 1
    return [*made, f"run {(now // 16 + 50) * 16}", "report", "wave", "quit"]


def answers_in(text: bytes) -> list[Answer]:
    """The answers of a live board. ValueError: the text is none."""
    found, at = [], 0
    while at < len(text):
        end = text.index(b"\n", at)
        kind, cycle, *words = text[at:end].decode().split()
        size = int(words[0]) if kind == "ok" else 0
        block = text[end + 1 : end + 1 + size]
        at = end + 1 + (size + 1 if size else 0)
        found.append(Answer(kind, int(cycle), words[1:] if kind == "ok" else words, block))
    return found


def changes_in(wave: str) -> Changes:
    """By variable of a wave its changes: a cycle and the value from it on."""
    by_code: dict[str, list[tuple[int, str]]] = {}
    by_name: Changes = {}
    at = 0
    for line in wave.splitlines():
        if line.startswith("$var"):
            words = line.split()
            by_name[words[4]] = by_code.setdefault(words[3], [])
        elif line[0] == "#":
            at = int(line[1:]) // 625
        elif line[0] != "$":
            by_code[line[1:]].append((at, line[0]))
    return by_name


def level(changes: list[tuple[int, str]], cycle: int) -> str:
    """The value of a variable in a cycle."""
    return changes[bisect.bisect_right(changes, cycle, key=lambda it: it[0]) - 1][1]


def conditions_in(words: list[str]) -> list[list[str]]:
    """The conditions of a run, each with its words."""
    found, at = [], 0
    while at < len(words):
        count = 3 if words[at] == "level" else 2
        found.append(words[at : at + count])
        at += count
    return found


def holds(condition: list[str], cycle: int, changes: Changes, sent: int) -> bool:
    """Whether a condition holds in a cycle, below which so many bytes were sent."""
    if condition[0] == "sent":
        return sent >= int(condition[1])
    row = changes[condition[1]]
    if condition[0] == "edge":
        return level(row, cycle) != level(row, cycle - 1)
    return level(row, cycle) == condition[2]


def first_cycle(condition: list[str], now: int, end: int, changes: Changes, sent_by: dict[int, int]) -> int:
    """The first cycle above `now` in which a condition holds, or one above `end` where it is later than that. Of bytes it is only
    known how many there are below `now`, `end - 1` and `end`, so that the answer may be `end - 1` for an earlier one.
    """
    if condition[0] == "sent":
        cycles = [now + 1] if sent_by[now] >= int(condition[1]) else [max(now + 1, end - 1), end]
    else:
        cycles = [now + 1, *(cycle for cycle, _ in changes[condition[1]] if now + 1 < cycle <= end)]
    return next((it for it in cycles if holds(condition, it, changes, sent_by.get(it, sent_by[now]))), end + 1)


def end_of(words: list[str], now: int, end: int, changes: Changes, sent_by: dict[int, int]) -> tuple[int, int]:
    """(the cycle, the number) with which a run from `now` has to end that was answered with cycle `end`; (`end` + 1, 0) where it
    has to go on there."""
    conditions = conditions_in(words[1:])
    firsts = [first_cycle(it, now, end, changes, sent_by) for it in conditions]
    full = [it for it in (end - 1, end) if now < it and sent_by[it] - sent_by[now] >= MOST_SENT]
    cycle = min([end + 1, int(words[0]), *firsts, *full])
    return cycle, next((number for number, first in enumerate(firsts, 1) if first == cycle <= end), 0)


def faults_of(requests: list[str], answers: list[Answer], changes: Changes, sent_by: dict[int, int]) -> list[str]:
    """What is wrong with answers, by the wave and by how many bytes were sent by which cycle."""
    faults, now = [], 0
    for request, answer in zip(requests, answers):
        words = request.split()
        if request in WRONG and (answer.kind, answer.words[:1]) != ("no", [str(WRONG[request])]):
            faults.append(f"{request[:40]!r}: {answer.kind} {answer.words}")
        if answer.kind == "ok" and words[0] == "level" and answer.words != [level(changes[words[1]], now)]:
            faults.append(f"{request!r} in cycle {now}: {answer.words}")
        if answer.kind == "ok" and words[0] == "run":
            ended = (answer.cycle, int(answer.words[0]))
            wanted = end_of(words[1:], now, answer.cycle, changes, sent_by) if now < answer.cycle else (now + 1, 0)
            if ended != wanted:
                faults.append(f"{request!r} from cycle {now}: ended with {ended}, not with {wanted}")
            if len(answer.block) != sent_by[answer.cycle] - sent_by[now]:
                faults.append(f"{request!r} from cycle {now}: {len(answer.block)} bytes")
        if answer.kind == "no" and answer.cycle != now:
            faults.append(f"{request[:40]!r}: refused, and its cycle is {answer.cycle}, not {now}")
        now = answer.cycle
    return faults


def other_legs(requests: list[str], answers: list[Answer]) -> list[str]:
    """What gives another live board the same values in the same cycles, with runs to the last two cycles of each run."""
    made, now = [], 0
    for request, answer in zip(requests, answers):
        if answer.kind == "ok" and ACT.fullmatch(request):
            made.append(request)
        if answer.kind == "ok" and request.startswith("run "):
            made += [f"run {it}" for it in (answer.cycle - 1, answer.cycle) if now < it]
        now = answer.cycle
    return [*made, "report", "wave", "quit"]


def lines_given(requests: list[str], answers: list[Answer], before: list[tuple[int, str]]) -> list[tuple[int, str]]:
    """The lines of a live board's script: those of its file and those that were given, in the order of their cycles."""
    lines, now = [*before], 0
    for request, answer in zip(requests, answers):
        acted = ACT.fullmatch(request)
        if acted and answer.kind == "ok":
            lines.append((int(acted[1]) * (16 if acted[2] == "us" else 1) if acted[1] else now, acted[3]))
        now = answer.cycle
    return sorted(lines, key=lambda it: it[0])


def lines_in(script: pathlib.Path) -> list[tuple[int, str]]:
    """The lines of a script's file that act, with their cycles."""
    found = []
    for line in script.read_text().splitlines():
        acted = ACT.fullmatch(line)
        if acted and acted[1]:
            found.append((int(acted[1]) * (16 if acted[2] == "us" else 1), acted[3]))
    return found


def converse(
    program: str, folder: pathlib.Path, wave: pathlib.Path, requests: list[str], words: list[str]
) -> tuple[list[Answer], str]:
    """(the answers after the greeting, what is wrong or nothing) of a live board."""
    told = "\n".join(requests).encode() + b"\n"
    live = subprocess.run([program, "serve", str(folder), "--vcd", str(wave), *words], input=told, capture_output=True)
    if live.returncode or live.stderr:
        return [], f"status {live.returncode}: {live.stderr.decode()}"
    answers = answers_in(live.stdout)
    if len(answers) != len(requests) + 1:
        return [], f"{len(answers)} answers to {len(requests)} requests"
    return answers[1:], ""


def bytes_in(requests: list[str], answers: list[Answer]) -> bytes:
    """The blocks of the runs, one after the other."""
    return b"".join(answer.block for request, answer in zip(requests, answers) if request.startswith("run "))


def sent_counts(requests: list[str], answers: list[Answer]) -> dict[int, int]:
    """By cycle of a live board how many bytes it had sent."""
    counts, sent = {0: 0}, 0
    for request, answer in zip(requests, answers):
        if request.startswith("run "):
            sent += len(answer.block)
            counts[answer.cycle] = sent
    return counts


def differs_from_run(
    runner: str,
    folder: pathlib.Path,
    box: pathlib.Path,
    lines: list[tuple[int, str]],
    answers: list[Answer],
    sent: bytes,
) -> list[str]:
    """What differs between a live board, whose wave is live.vcd in the box, and the run of its script as far as a script reaches: of
    a longer live board the first part of the wave and of the bytes is compared."""
    cycles = [at for at, _ in lines]
    end = min([answers[-1].cycle, MOST_SCRIPTED, *cycles[MOST_LINES : MOST_LINES + 1]]) // 16
    is_whole = end * 16 == answers[-1].cycle
    script, outputs = box / "script", ["--vcd", str(box / "run.vcd"), "--report", str(box / "report")]
    script.write_text("".join(f"{at}cy {words}\n" for at, words in lines if is_whole or at < end * 16))
    ran = subprocess.run(
        [runner, "run", str(folder), "--us", str(end), "--script", str(script), *outputs], capture_output=True
    )
    if ran.returncode:
        return [f"run: {ran.stderr.decode()}"]
    faults = []
    wave, live = (box / "run.vcd").read_bytes(), (box / "live.vcd").read_bytes()
    begun = wave[: -len(wave.splitlines()[-1]) - 1]
    if not (sent == ran.stdout if is_whole else sent.startswith(ran.stdout)):
        faults.append("other bytes")
    if not (live == wave if is_whole else live.startswith(begun)):
        faults.append("another wave")
    if is_whole and answers[-3].block != (box / "report").read_bytes():
        faults.append("another report")
    if answers[-2].words != [str(len(live) - len(live.splitlines()[-1]) - 1)]:
        faults.append(f"another length of the wave: {answers[-2].words}")
    return faults


def try_board(
    program: str, runner: str, folder: pathlib.Path, box: pathlib.Path, pick: random.Random, far: bool
) -> tuple[list[str], list[str]]:
    """(the requests, what differs) of one live board."""
    parts = json.loads((folder / "diagram.json").read_text())["parts"]
    requests = requests_for(parts, pick, far)
    script = folder / "script.txt"
    words = ["--script", str(script)] if script.exists() and pick.random() < 0.5 else []
    answers, fault = converse(program, folder, box / "live.vcd", requests, words)
    if fault:
        return requests, [fault]
    others = other_legs(requests, answers)
    other_answers, fault = converse(program, folder, box / "other.vcd", others, words)
    if fault:
        return requests, [f"in other legs: {fault}"]
    faults = []
    asked = [int(it.split()[1]) for it in others if it.startswith("run ")]
    if asked != [answer.cycle for it, answer in zip(others, other_answers) if it.startswith("run ")]:
        faults.append("a run without conditions ended before its end")
    if bytes_in(others, other_answers) != bytes_in(requests, answers):
        faults.append("other bytes in other legs")
    if other_answers[-3:] != answers[-3:] or (box / "other.vcd").read_bytes() != (box / "live.vcd").read_bytes():
        faults.append("another end in other legs")
    if not faults:
        changes = changes_in((box / "live.vcd").read_text())
        faults = faults_of(requests, answers, changes, sent_counts(others, other_answers))
    lines = lines_given(requests, answers, lines_in(script) if words else [])
    return requests, [
        *faults,
        *differs_from_run(runner, folder, box, lines, answers, bytes_in(requests, answers)),
    ]


class Sleeper:
    """What the sleeping board does: by cycle the values of its button."""

    def __init__(self) -> None:
        self.given: list[tuple[int, int, int]] = []  # a cycle, the place among all that were given, and the value

    def value(self, cycle: int) -> int:
        """The value that counts in a cycle: the last one of a cycle below it."""
        at = bisect.bisect_left(self.given, (cycle, -1, 0))
        return self.given[at - 1][2] if at else 0

    def level(self, cycle: int) -> str:
        """The level of pin 2 in a cycle."""
        if self.value(cycle):
            return "0"
        return "1" if cycle >= PULLED else "z"

    def first(self, condition: list[str], now: int, until: int) -> int:
        """The first cycle above `now` in which a condition holds; one above `until` where it is later."""
        cycles = [now + 1, PULLED]
        at = bisect.bisect_left(self.given, (now, -1, 0))
        while at < len(self.given) and self.given[at][0] < until:
            cycles.append(self.given[at][0] + 1)
            at += 1
        for cycle in sorted(it for it in cycles if now < it <= until):
            if condition[0] == "sent":
                held = condition[1] == "0"
            elif condition[0] == "edge":
                held = self.level(cycle) != self.level(cycle - 1)
            else:
                held = (self.level(cycle) if condition[1] == "uno.2" else "z") == condition[2]
            if held:
                return cycle
        return until + 1

    def changes(self) -> list[tuple[int, str]]:
        """All changes of pin 2 up to the end of the board's time, from cycle 0 on."""
        found = [(0, "z")]
        for cycle in sorted({PULLED, *(at + 1 for at, _, _ in self.given if at + 1 < MOST_CYCLES)}):
            if self.level(cycle) != found[-1][1]:
                found.append((cycle, self.level(cycle)))
        return found


def sleeping_dialogue(board: Sleeper, pick: random.Random) -> list[tuple[str, str]]:
    """Random requests for the sleeping board, each with its answer, up to the end of its time."""
    now, made = 0, []

    def give(until: int) -> None:
        at = now + pick.choice([0, 0, 1, 2, pick.randrange(40_000), pick.randrange(3_000_000)])
        time, at = pick.choice([("", now), (f"{at}cy ", at), (f"{-(-at // 16)}us ", -(-at // 16) * 16)])
        if at > until:
            made.append((f"{MOST_CYCLES + 1}cy press btn1", f"no {now} 102 RequestNumber"))
            return
        value = pick.randrange(2)
        words = pick.choice([["release btn1", "press btn1"][value], f"set btn1 {value}"])
        bisect.insort(board.given, (at, len(made), value))
        made.append((time + words, f"ok {now} 0"))

    def run(until: int) -> int:
        conditions = pick.choice([["edge uno.2"], ["level uno.2 0"], ["level uno.2 1"], ["level uno.3 0"], ["sent 1"]])
        conditions += pick.choice([[], ["level uno.2 0"], ["edge uno.2"], ["level uno.3 z"], ["sent 0"]])
        conditions = pick.choice([[], conditions[:1], conditions])
        firsts = [board.first(it.split(), now, until) for it in conditions]
        end = min([until, *firsts])
        held = firsts.index(end) + 1 if end in firsts else 0
        made.append((" ".join([f"run {until}", *conditions]), f"ok {end} 0 {held}"))
        return end

    for _ in range(7500):
        if pick.random() < 0.7:
            give(MOST_CYCLES)
        elif pick.random() < 0.3:
            made.append(("level uno.2", f"ok {now} 0 {board.level(now)}"))
        else:
            now = run(now + pick.choice([1, 2, pick.randrange(1, 3000), pick.randrange(1, 3_000_000)]))
    while now < MOST_CYCLES - 20_000:
        now = run(MOST_CYCLES - 20_000)
    while now < MOST_CYCLES:
        give(MOST_CYCLES)
        now = run(min(MOST_CYCLES, now + pick.randrange(1, 2000)))
    lines = f"cycles {now}\nuno uno pc 0x0004 sleep\ninput btn1 {board.value(now)}\n"
    return [
        *made,
        (f"run {now}", f"no {now} 106 RequestPast"),
        (f"run {now + 1}", f"no {now} 102 RequestNumber"),
        ("level uno.2", f"ok {now} 0 {board.level(now)}"),
        ("report", f"ok {now} {len(lines)}\n{lines}"),
        ("wave", ""),  # its length is looked up in the file
        ("quit", f"ok {now} 0"),
    ]


def try_sleeper(program: str, runner: str, box: pathlib.Path, pick: random.Random) -> tuple[list[str], list[str]]:
    """(the requests, what differs) of one sleeping board up to the end of its time."""
    data = [2 * len(SLEEPER), 0, 0, 0, *(byte for word in SLEEPER for byte in (word & 255, word >> 8))]
    line = "".join(f"{byte:02X}" for byte in [*data, -sum(data) & 255])
    (box / "sleeper.hex").write_text(f":{line}\n:00000001FF\n")
    (box / "wokwi.toml").write_text("[wokwi]\nversion = 1\nfirmware = 'sleeper.hex'\n")
    (box / "diagram.json").write_text(json.dumps(SLEEPER_PARTS))
    board = Sleeper()
    dialogue = sleeping_dialogue(board, pick)
    requests = [it for it, _ in dialogue]
    answers, fault = converse(program, box, box / "live.vcd", requests, [])
    if fault:
        return requests, [fault]
    wave = (box / "live.vcd").read_text()
    faults = []
    for at, ((request, wanted), answer) in enumerate(zip(dialogue, answers)):
        words = f"{answer.kind} {answer.cycle} {len(answer.block)}" if answer.kind == "ok" else f"no {answer.cycle}"
        block = f"\n{answer.block.decode()}" if answer.block else ""
        if request != "wave" and " ".join([words, *answer.words]) + block != wanted:
            faults.append(f"answer {at} to {request!r}: {answer}, not {wanted!r}")
    if changes_in(wave)["uno.2"] != board.changes() or not wave.endswith(f"\n#{625 * MOST_CYCLES}\n"):
        faults.append("another wave than is known")
    lines = [(at, f"set btn1 {value}") for at, _, value in board.given]
    return requests, [*faults[:3], *differs_from_run(runner, box, box, lines, answers, b"")]


def main() -> int:
    """Ends with 1 where a live board differs."""
    parser = argparse.ArgumentParser(description=__doc__, formatter_class=argparse.RawDescriptionHelpFormatter)
    parser.add_argument("--seed", default="1", help="another seed makes other requests")
    parser.add_argument("--count", type=int, default=10, help="live boards of each folder")
    parser.add_argument(
        "--far",
        action="append",
        default=[],
        type=pathlib.Path,
        metavar="FOLDER",
        help="a board that sleeps, and has buttons: its live boards go on past 10 s",
    )
    parser.add_argument("--runner", help="the program that runs the scripts, PROGRAM if it is not named")
    parser.add_argument("program", help="the program that serves")
    parser.add_argument("folder", nargs="+", type=pathlib.Path)
    given = parser.parse_args()
    runner, bad = given.runner or given.program, 0
    boards = [*((it, False) for it in given.folder), *((it, True) for it in given.far), (None, False)]
    for folder, far in boards:
        for number in range(given.count):
            with tempfile.TemporaryDirectory() as name:
                box = pathlib.Path(name)
                if folder:
                    pick = random.Random(f"{given.seed} {folder.name} {number}")
                    requests, faults = try_board(given.program, runner, folder, box, pick, far)
                else:
                    pick = random.Random(f"{given.seed} {number}")
                    requests, faults = try_sleeper(given.program, runner, box, pick)
            if faults:
                bad += 1
                print(folder or "the sleeping board", number, *faults, sep="\n  ")
                print(*requests, sep=os.linesep)
    print(f"{given.count * len(boards)} live boards, {bad} differ")
    return 1 if bad else 0


if __name__ == "__main__":
    sys.exit(main())
