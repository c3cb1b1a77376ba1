"""A command of the program whose requests for memory are refused, one at a time: refuse.c comes before the C library's heap and
refuses request k. The program must then end with 7, with the line `out of memory`, with nothing on standard output, and with
each file as it was; above the last request it must answer as ever, byte for byte."""

import os
import pathlib
import shutil
import subprocess
from typing import Iterator, NamedTuple, Optional, Union

TOP = pathlib.Path(__file__).resolve().parents[2]
SAMPLE, LIMIT = 60, 300
BOTH = "--vcd wave.vcd --report report.txt"
# each case: the examples that it takes, and its words; {0} is the folder of the first
CASES: dict[str, tuple[list[str], str]] = {
    "bare": (["blink"], "bare {0}/blink.hex --us 1"),
    "run": (["counter"], f"run {{0}} --us 2 {BOTH}"),
    "run-script": (["keypad"], "run {0} --us 10 --script {0}/script.txt " + BOTH),
    "run-chip": (["chip-inverter"], f"run {{0}} --us 2 {BOTH}"),
    "run-i2c-chip": (["chip-registers"], f"run {{0}} --us 2000 {BOTH}"),
    "run-display": (["chip-display"], f"run {{0}} --us 2 {BOTH}"),
    "run-lcd": (["lcd-i2c"], f"run {{0}} --us 2000 {BOTH}"),
    "run-oled": (["oled-hello"], f"run {{0}} --us 2000 {BOTH}"),
    "run-shift": (["shift-out"], f"run {{0}} --us 100 {BOTH}"),
    "replay": (["chip-inverter", "replay"], f"replay {{0}} {{1}}/recorded.vcd --us 1 {BOTH}"),
    "twin": (["chip-inverter", "twin"], "twin {0} {1}/without-its-third-write --us 2"),
    "twin-same": (["chip-inverter", "twin"], "twin {0} {1}/by-table --us 2"),
    "make": ([], "make 7 --us 10"),
    "module": (["chip-typist"], "module {0}/typist.wasm"),
    "check": (["chip-counter"], "check {0}"),
    "check-missing": ([], "check none"),
    "check-refused": (["replay"], "check {0}"),
    "module-refused": (["chip-typist"], "module {0}/wokwi.toml"),
    "words": ([], "run"),
    "decode-uart": (["replay"], "decode {0}/recorded.vcd --uart uno.1 --bit 4"),
    "decode-spi": (["replay"], "decode {0}/recorded.vcd --spi uno.13 --data uno.11 --mode 0"),
    "decode-i2c": (["replay"], "decode {0}/recorded.vcd --i2c uno.A5 --sda uno.A4"),
}


def refusing_heap(room: pathlib.Path) -> pathlib.Path:
    """The library that refuses a request, made in a folder. Needs a compiler for C."""
    library = room / "refuse.so"
    subprocess.run(["cc", "-O2", "-shared", "-fPIC", "-o", library, TOP / "tools/hostile/refuse.c"], check=True)
    return library


class Ended(NamedTuple):
    """How a call ended: its status, or what is said of one that did not end, and what it wrote on both outputs."""

    status: Union[int, str]
    out: bytes
    said: bytes


class Tried(NamedTuple):
    """How many requests a command makes, how many of them were refused, and what was otherwise than it must be."""

    requests: int
    refused: int
    wrong: list[str]


class Case:
    """A command of CASES in a folder of its own."""

    def __init__(self, name: str, room: pathlib.Path, library: pathlib.Path, program: pathlib.Path) -> None:
        examples, words = CASES[name]
        self.folder, self.library, self.program = room / name, library, program
        self.count = room / f"{name}.count"
        self.folder.mkdir()
        for example in examples:
            shutil.copytree(TOP / "examples" / example, self.folder / example)
        self.words = words.format(*examples).split()

    def begin(self) -> None:
        """Puts an older file in the place of each output."""
        for name in ("wave.vcd", "report.txt"):
            (self.folder / name).write_text("from before\n")

    def texts(self) -> dict[pathlib.Path, bytes]:
        """What each file has."""
        return {path: path.read_bytes() for path in sorted(self.folder.rglob("*")) if path.is_file()}

    def files(self) -> dict[str, tuple]:
        """Each file with what tells whether it was touched."""
        stats = {path: path.stat() for path in self.texts()}
        return {
            str(path.relative_to(self.folder)): (it.st_ino, it.st_mtime_ns, path.read_bytes())
            for path, it in stats.items()
        }

    def run(self, number: Optional[int] = None) -> Ended:
        """How it ends if request `number` is refused: none at 0, and without the library at None."""
        environment = dict(os.environ)
        if number is not None:
            environment |= {
                "LD_PRELOAD": str(self.library),
                "REFUSE": str(number),
                "REFUSE_COUNT": str(self.count),
            }
        words = [str(self.program), *self.words]
        try:
            ended = subprocess.run(
                words, cwd=self.folder, env=environment, stdin=subprocess.DEVNULL, capture_output=True, timeout=LIMIT
            )
        except subprocess.TimeoutExpired:
            return Ended(f"none after {LIMIT} s", b"", b"")
        return Ended(ended.returncode, ended.stdout, ended.stderr)

    def answer(self, number: Optional[int] = None) -> tuple[Ended, dict[pathlib.Path, bytes]]:
        """How it ends, and what its folder has then."""
        self.begin()
        return self.run(number), self.texts()

    def refused(self, number: int, before: dict[str, tuple]) -> Iterator[str]:
        """What is wrong with how it ends if a request is refused."""
        ended, now = self.run(number), self.files()
        changed = sorted(it for it in {*now, *before} if now.get(it) != before.get(it))
        if ended != (7, b"", b"out of memory\n"):
            yield f"status {ended.status}, {len(ended.out)} bytes on standard output, {ended.said[-200:]!r}"
        if changed:
            yield f"changed {' '.join(changed)}"

    def tried(self, is_all: bool) -> Tried:
        """Refuses each of its requests, or some SAMPLE of them."""
        usual = self.answer()
        wrong = [] if self.answer(0) == usual else ["with the library another answer than without"]
        last = int(self.count.read_text()) if self.count.exists() else 0
        if not last:
            return Tried(0, 0, ["the program does not take its memory from the C library"])
        some = {1, last, *range(1, last + 1, max(1, last // SAMPLE))}
        numbers = range(1, last + 1) if is_all else sorted(some)
        self.begin()
        before = self.files()
        for number in numbers:
            wrong += [f"request {number} of {last}: {it}" for it in self.refused(number, before)]
        for number in (last + 1, last + 1000):
            if self.answer(number) != usual:
                wrong.append(f"request {number}, which is none: another answer than ever")
        return Tried(last, len(numbers), wrong)
