#!/usr/bin/env python3
"""The page reads archives and lowers diagrams as the tools in Python do: the same files, texts, notes, faults and sentences. Needs node."""
import base64
import io
import json
import os
import random
import shutil
import subprocess
import sys
import tempfile
import unittest
from typing import Sequence

HERE = os.path.dirname(os.path.abspath(__file__))
ROOT = os.path.realpath(os.path.join(HERE, "..", "..", ".."))
WOKWI = os.path.join(ROOT, "tools", "wokwi")
sys.dont_write_bytecode = True
sys.path[:0] = [WOKWI]
import archive
import diagram as diagrams
import lower
import moves
import test_archive

PROJECTS = os.path.join(WOKWI, "projects")
TYPES = diagrams.table()


def in_page(
    archives: Sequence[bytes] = (),
    projects: Sequence[dict] = (),
    folders: Sequence[dict] = (),
    scripts: Sequence[dict] = (),
) -> dict:
    """What the page's code makes of them."""
    asked = {
        "archives": [base64.b64encode(it).decode() for it in archives],
        "projects": list(projects),
        "folders": list(folders),
        "scripts": list(scripts),
    }
    words = [shutil.which(os.environ.get("NODE", "node")), os.path.join(HERE, "same.mjs")]
    return json.loads(
        subprocess.run(words, input=json.dumps(asked).encode(), stdout=subprocess.PIPE, check=True).stdout
    )


def in_python(project: dict) -> dict:
    """What diagram.py makes of a project: {diagram: text, chips: {name: pins}}."""
    value = json.loads(project["diagram"])
    shape = diagrams.shape_fault(value)
    if shape:
        return {"shape": shape}
    lowering = diagrams.Lowering(value, project["chips"], TYPES)
    made = lowering.outcome()
    return {
        "text": diagrams.text_of(made),
        "notes": lowering.notes,
        "faults": lowering.faults,
        "isBoard": lowering.is_board,
        "needs": diagrams.needs_lowering(value, TYPES),
        "chips": {name: list(own) for name, own in lowering.own_chips.items()},
    }


def project_of(folder: str) -> dict:
    """The diagram of a folder, and the pins of its chips."""
    with open(os.path.join(folder, "diagram.json"), encoding="utf-8-sig") as file:
        text = file.read()
    chips = lower.chips_of(folder, json.loads(text), lower.read_settings(folder)[1])
    return {"diagram": text, "chips": {name: chip.pins() for name, chip in chips.items()}}


def read(data: bytes) -> dict:
    """What archive.py reads of an archive, as same.mjs says it."""
    try:
        if len(data) > archive.MOST_BYTES:
            raise archive.ArchiveFault(f"the archive has more than {archive.MOST_BYTES >> 20} MiB")
        return {"files": [[name, base64.b64encode(it).decode()] for name, it in archive.read_open(io.BytesIO(data))]}
    except archive.ArchiveFault as fault:
        return {"fault": str(fault)}


def packed(folder: str) -> dict[str, str]:
    """The files of a folder in base64, by name."""
    found = {}
    for name in os.listdir(folder):
        with open(os.path.join(folder, name), "rb") as file:
            found[name] = base64.b64encode(file.read()).decode()
    return found


class Diagrams:
    """Diagrams at random, of all types of the table, with attributes that are right, odd and wrong, and wires of all sorts."""

    VALUES = [
        "",
        "0",
        "1",
        "2",
        "3",
        "512",
        "1023",
        "1024",
        "0.5",
        "1.5",
        "2.5",
        "-1",
        " 7 ",
        "1e3",
        "10k",
        "0.2",
        "8M",
        "9M",
        "3m",
        "on",
        "anode",
        "cathode",
        "i2c",
        "full",
        "red",
        "0x27",
        "0x3d",
        "now",
        "2024-02-29T12:30:05.5+01:30",
        "20240229",
        "2023-02-29",
        "1969-12-31",
        "946684800",
        "99999999999",
        "-273.15",
        "-40",
        "80",
        "1e-5",
        "npn",
        "it's",
        'say "x"',
        'it\'s "x"',
        "a\nb\t\\",
        "\u00e9\u2028\U0001f600\x00",
        5,
        0,
        -3,
        2.5,
        1.0,
        1e22,
        1.5e-7,
        123456789.125,
        -0.0,
        True,
        None,
        [1],
        {"a": 1},
    ]
    KEYS = [
        "value",
        "common",
        "digits",
        "color",
        "pins",
        "i2cAddress",
        "temperature",
        "humidity",
        "lux",
        "gamma",
        "rl10",
        "threshold",
        "beta",
        "distance",
        "initTime",
        "accelX",
        "rotationZ",
        "transistor",
        "frequency",
        "flip",
        "1",
        "0",
        "__proto__",
        "label",
        "pixels",
        "rows",
        "cols",
        "layout",
        "chain",
        "horn",
    ]
    IDS = [
        "led1",
        "rgb",
        "rgb-r",
        "bb",
        "bb1",
        "d",
        "r1",
        "a b",
        "\u00e9",
        "x" * 70,
        "",
        "__proto__",
        "constructor",
        "a:b",
        "chip",
        "nano",
    ]
    COLOURS = ["green", "", "red", 3, None]

    def __init__(self, seed: int):
        self.random = random.Random(seed)
        self.kinds = [
            *TYPES["simulated"],
            *TYPES["lowered"],
            *TYPES["left out"],
            *TYPES["not there"],
            "wokwi-teapot",
            "chip-own",
            "chip-dht22",
            "chip-none",
        ]

    def attrs(self) -> dict:
        return {self.random.choice(self.KEYS): self.random.choice(self.VALUES) for _ in range(self.random.randrange(5))}

    def pins_of(self, part: dict) -> list[str]:
        kind = part["type"]
        if kind in TYPES["breadboards"]:
            return [f"{self.random.randrange(70)}{side}.{self.random.choice('abcdefghij')}" for side in "tbtb"] + [
                f"{rail}.{self.random.randrange(60)}" for rail in ("tp", "tn", "bp", "bn", "mp")
            ]
        rule = TYPES["lowered"].get(kind)
        pieces = (
            [piece for some in (rule["cases"].values() if "cases" in rule else [rule["as"]]) for piece in some or []]
            if rule
            else []
        )
        known = (
            [pin for piece in pieces for pin in piece["pins"]]
            + TYPES["simulated"].get(kind, {}).get("pins", [])
            + (["IN", "OUT"] if kind.startswith("chip-") else [])
        )
        return [*(known or ["A", "VCC"]), self.random.choice(["none", "GND", "GND.2", "RST", "", "a:b"])]

    def wire(self, parts: list[dict]) -> list:
        ends = []
        for _ in range(2):
            part = self.random.choice(parts)
            ends.append(
                self.random.choice(
                    [f"{part['id']}:{self.random.choice(self.pins_of(part))}"] * 20 + ["$serialMonitor:RX", "none:A"]
                )
            )
        more = [
            self.random.choice(self.COLOURS),
            self.random.choice([[], ["v10", "*", "h-4.5"], ["$bb"], ["$bb", 1], "x"]),
        ]
        return ends + more[: self.random.randrange(3)]

    def diagram(self) -> dict:
        parts = [{"type": "wokwi-arduino-uno", "id": "uno"}] if self.random.random() < 0.9 else []
        for n in range(self.random.randrange(1, 12)):
            kind = self.random.choice(self.kinds + list(TYPES["breadboards"]) * 8)
            part = {"type": kind, "id": self.random.choice(self.IDS) if self.random.random() < 0.2 else f"p{n}"}
            part.update(
                {
                    key: self.random.choice([0, -20, 7.5, 1e-5, 300.0])
                    for key in ("top", "left", "rotate", "hide")
                    if self.random.random() < 0.5
                }
            )
            if self.random.random() < 0.7:
                part["attrs"] = self.attrs()
            parts.append(part)
        wires = [self.wire(parts) for _ in range(self.random.randrange(30))]
        return {
            "version": 1,
            "author": self.random.choice(["", 'A "B"', None, "\u00e9", {"a": [1.0]}]),
            "parts": parts,
            "connections": wires,
        }


@unittest.skipUnless(shutil.which(os.environ.get("NODE", "node")), "no node")
class Same(unittest.TestCase):
    maxDiff = None

    def compare(self, projects: list[dict], names: list[str]) -> None:
        for name, project, found in zip(names, projects, in_page(projects=projects)["projects"]):
            with self.subTest(name):
                self.assertEqual(found, in_python(project))

    def test_every_project_of_the_tests_and_every_example(self) -> None:
        examples = os.path.join(ROOT, "examples")
        folders = [
            os.path.join(at, name)
            for at in (PROJECTS, examples)
            for name in sorted(os.listdir(at))
            if os.path.exists(os.path.join(at, name, "diagram.json"))
        ]
        self.assertGreater(len(folders), 60)
        self.compare([project_of(folder) for folder in folders], folders)

    def test_the_folder_that_is_made_of_each_project(self) -> None:
        """All files, byte for byte. What would be compiled is handed over: a page compiles nothing."""
        names = sorted(name for name in os.listdir(PROJECTS) if os.path.isdir(os.path.join(PROJECTS, name)))
        given, expected = [], []
        with tempfile.TemporaryDirectory() as box:
            for name in names:
                folder, out = os.path.join(box, name), os.path.join(box, "made", name)
                shutil.copytree(
                    os.path.join(PROJECTS, name), folder, ignore=shutil.ignore_patterns("expected", "script.txt")
                )
                for source in [it for it in os.listdir(folder) if it.endswith(".chip.c")]:
                    with open(os.path.join(folder, source[:-1] + "wasm"), "wb") as file:
                        file.write(b"\0asm of " + source.encode())
                with open(os.path.join(folder, "sketch.ino.hex"), "wb") as file:
                    file.write(b":00000001FF\n")
                said: list[str] = []
                faults = lower.lower(
                    folder, out, anyway=True, firmware=os.path.join(folder, "sketch.ino.hex"), say=said.append
                )
                self.assertEqual(faults, [], name)
                left = [text[len("left out: ") :] for text in said if text.startswith("left out: ")]
                expected.append(
                    {
                        "notes": [text for text in said if not text.startswith("left out: ")],
                        "faults": left,
                        "files": packed(out),
                    }
                )
                given.append(packed(folder))
        as_they_are = []
        for name, made, found in zip(names, expected, in_page(folders=given)["folders"]):
            with self.subTest(name):
                if "sketch.ino.hex" in found.get("files", {}):  # the simulator takes the project as it is
                    as_they_are.append(name)
                    found["files"] = made["files"]
                self.assertEqual(found, made)
        self.assertLessEqual(len(as_they_are), 5, as_they_are)

    def test_attributes_in_thousandths_are_handed_over_to_chips_that_ask_for_them(self) -> None:
        values = [
            "23.5",
            "2",
            "-0.0005",
            "0.0015",
            "0.0025",
            "1e3",
            " +.5 ",
            "2147483.647",
            "2147483.648",
            "1e999",
            "4294967296",
            "-",
            "0x10",
            "5.",
            "\u0663.5",
            2.5,
            7,
            True,
        ]
        part = {"type": "chip-own", "id": "it", "attrs": {f"a{n}": value for n, value in enumerate(values)}}
        given, expected = [], []
        with tempfile.TemporaryDirectory() as box:
            for name, image in (("asks", b"\0asm a0.thousandths\0"), ("asks not", b"\0asm a0.thousandth\0")):
                folder, out = os.path.join(box, name), os.path.join(box, "made", name)
                os.mkdir(folder)
                texts = {
                    "diagram.json": json.dumps(
                        {
                            "version": 1,
                            "parts": [
                                {"type": "wokwi-arduino-uno", "id": "uno"},
                                part,
                                {"type": "wokwi-servo", "id": "s"},
                            ],
                            "connections": [],
                        }
                    ),
                    "own.chip.json": '{"pins": ["A"]}',
                    "a.hex": ":00000001FF\n",
                }
                for file, data in [*((file, text.encode()) for file, text in texts.items()), ("own.chip.wasm", image)]:
                    with open(os.path.join(folder, file), "wb") as out_file:
                        out_file.write(data)
                self.assertEqual(lower.lower(folder, out), [])
                expected.append(packed(out))
                given.append(packed(folder))
        for made, found in zip(expected, in_page(folders=given)["folders"]):
            self.assertEqual(found["files"], made)
        self.assertIn(b'"a0.thousandths": "23500"', base64.b64decode(expected[0]["diagram.json"]))
        self.assertNotIn(b".thousandths", base64.b64decode(expected[1]["diagram.json"]))

    def test_every_type_alone_with_its_pins_on_wires(self) -> None:
        made, names, random_ = [], [], Diagrams(0)
        for kind in random_.kinds + list(TYPES["breadboards"]):
            for attrs in (
                {},
                *({TYPES["lowered"][kind]["by"]: case} for case in TYPES["lowered"].get(kind, {}).get("cases", {})),
            ):
                part = {"type": kind, "id": "it", "attrs": attrs}
                wires = [[f"uno:{n % 14}", f"it:{pin}", "green", ["v5"]] for n, pin in enumerate(random_.pins_of(part))]
                made.append(
                    {
                        "diagram": json.dumps(
                            {
                                "version": 1,
                                "parts": [{"type": "wokwi-arduino-uno", "id": "uno"}, part],
                                "connections": wires,
                            }
                        ),
                        "chips": {"own": ["IN", "OUT"]},
                    }
                )
                names.append(f"{kind} {attrs}")
        self.compare(made, names)

    def test_chains_of_pixels_and_parts_that_leave_a_full_board(self) -> None:
        uno, made, names = {"type": "wokwi-arduino-uno", "id": "uno"}, [], []

        def add(name: str, parts: list[dict], wires: list[list]) -> None:
            diagram = {"version": 1, "parts": [uno, *parts], "connections": wires}
            made.append({"diagram": json.dumps(diagram), "chips": {"own": ["IN"], "ws2812-3x1": ["IN"]}})
            names.append(name)

        kinds = [kind for kind, rule in TYPES["lowered"].items() if rule.get("chained")]
        self.assertGreater(len(kinds), 2)
        for ids in ("abc", ["a b", "a_b", "\u00e9"], "aab", ["__proto__", "constructor", ""]):
            for attrs in ({}, {"pixels": "3", "rows": 2, "cols": "x"}, {"pixels": "0", "layout": "serpentine"}):
                for last in (
                    [],
                    [["{2}:DOUT", "{0}:DIN"]],
                    [["{0}:DOUT", "uno:7"]],
                    [["{2}:DOUT", "uno:7", "red", ["h4"]]],
                ):
                    for kind in kinds:
                        parts = [
                            {"type": it, "id": one, "attrs": attrs, "top": 7.5} for it, one in zip((kind, *kinds), ids)
                        ]
                        wires = [["uno:6", "{0}:DIN"], ["{0}:DOUT", "{1}:DIN", "blue", ["v3"]], ["{2}:DIN", "{1}:DOUT"]]
                        ends = [
                            [it.format(*ids) if isinstance(it, str) else it for it in wire] for wire in wires + last
                        ]
                        add(f"{kind} {ids} {attrs} {last}", parts, ends)
        shows = [kind for kind, rule in TYPES["lowered"].items() if rule.get("only shows")]
        for kind in shows:
            for count in (8, 9, 12):
                parts = [{"type": kind, "id": f"p {n}", "attrs": {"rows": "2"}} for n in range(count)]
                others = [{"type": "wokwi-dht22", "id": "d"}, {"type": "wokwi-biaxial-stepper", "id": "b"}]
                wires = [["uno:2", f"p {n}:{pin}", "green", ["v2"]] for n in range(count) for pin in ("DIN", "PWM")]
                add(f"{count} {kind}", parts, wires)
                add(f"{count} {kind}, others", [*parts, *others, {"type": kind, "id": "p 8"}], wires[::-1])
        self.compare(made, names)

    def test_diagrams_at_random(self) -> None:
        seed = int(os.environ.get("SEED", "1"))
        count = int(os.environ.get("COUNT", "500"))
        random_ = Diagrams(seed)
        made = [
            {
                "diagram": json.dumps(random_.diagram(), ensure_ascii=random_.random.random() < 0.5, allow_nan=False),
                "chips": {"own": ["IN", "OUT"], "dht22": ["IN"]},
            }
            for _ in range(count)
        ]
        self.compare(made, [f"SEED={seed}, diagram {n}" for n in range(count)])

    def test_scripts_at_random(self) -> None:
        seed = int(os.environ.get("SEED", "1"))
        chance, given, expected = random.Random(seed), [], []
        moved = [
            (kind, rule) for key in ("lowered", "left out") for kind, rule in TYPES[key].items() if "controls" in rule
        ]
        self.assertGreater(len(moved), 15)
        simulated = [(kind, {}) for kind in moves.RANGES]
        for count in range(int(os.environ.get("COUNT", "500"))):
            kinds = chance.sample(moved, 3) + chance.sample(simulated, 2)
            attrs = {"delayTime": "0.01", "inhibitTime": "0.02", "retrigger": chance.choice("01"), "threshold": "1.5"}
            parts = [
                {"type": kind, "id": f"p{n}", "attrs": attrs if n % 2 else {}, "left": n}
                for n, (kind, _) in enumerate(kinds)
            ]
            uno = {"type": "wokwi-arduino-uno", "id": "uno"}
            lowering = diagrams.Lowering({"version": 1, "parts": [uno, *parts], "connections": []}, {}, TYPES)
            made, lines, cycle = lowering.outcome(), [], 0
            for _ in range(chance.randrange(1, 9)):
                cycle += chance.choice((0, 1, 40, 16000, 333333, 3000000))
                n = chance.randrange(5)
                names = [*kinds[n][1].get("controls", {"value": {}})]
                name = (
                    chance.choice(names) if chance.random() < 0.95 else chance.choice(["position", "r2c3", "3", "none"])
                )
                rule = kinds[n][1].get("controls", {}).get(name, {})
                values = [*rule.get("words", [])] or [
                    str(chance.uniform(rule.get("min", 0), rule.get("max", 1)))[:17],
                    "1",
                    "0",
                ]
                values = values if chance.random() < 0.95 else ["-3", "12.34567", "1.05", "100k", "x", "1e3"]
                where = f"{cycle}cy" if cycle % 16 or chance.random() < 0.5 else f"{cycle // 16}us"
                lines.append(f"{where} set p{n} {name} {chance.choice(values)}")
                if chance.random() < 0.1:
                    lines.append(f"{where} {chance.choice(['press', 'release'])} p{chance.randrange(3, 6)} bounce")
                if chance.random() < 0.1:
                    lines.append(f"{where} set p{chance.randrange(3, 6)} {chance.randrange(3)}")
                if chance.random() < 0.03:
                    lines.append(
                        chance.choice(["# a word", "", "5us set p0", "x", f"{where}  set  p4   1", "0cy set p3 1 2 3"])
                    )
            given.append({"diagram": diagrams.text_of(made), "script": chance.choice(["\n", "\r\n"]).join(lines)})
            try:
                text, seen = moves.expanded(given[-1]["script"], json.loads(given[-1]["diagram"]))
                controls = moves.controls_of(json.loads(given[-1]["diagram"]), seen)
                expected.append({"text": text, "seen": [list(it) for it in seen], "controls": controls})
            except moves.Fault as fault:
                expected.append({"fault": str(fault)})
        for n, (found, wanted) in enumerate(zip(in_page(scripts=given)["scripts"], expected)):
            self.assertEqual(found, wanted, f"SEED={seed}, script {n}: {given[n]['script']}")
        self.assertGreater(sum("text" in it for it in expected), len(expected) // 8)
        self.assertGreater(sum("fault" in it for it in expected), len(expected) // 8)

    def test_what_is_no_diagram(self) -> None:
        texts = [
            "[]",
            "3",
            "null",
            '{"version": 2, "parts": [], "connections": []}',
            '{"version": 1, "parts": []}',
            '{"version": 1, "connections": []}',
            '{"version": 1, "parts": [1], "connections": []}',
            '{"version": 1, "parts": [{"type": "a", "id": "b", "attrs": 1}], "connections": []}',
            '{"version": 1, "parts": [{"type": "a", "id": "b", "attrs": null}], "connections": []}',
            '{"version": 1, "parts": [], "connections": [["a", "b:c"]]}',
            '{"version": 1.0, "parts": [], "connections": [["a:b"]]}',
            ' { "version" :1, "parts":[ ] ,"connections" : []}',
        ]
        self.compare([{"diagram": text, "chips": {}} for text in texts], texts)

    def test_archives(self) -> None:
        made = {
            name: data
            for name, (data, _) in {**test_archive.REFUSED, **test_archive.TAKEN}.items()
            if name != "a large file"
        }
        for name, data, found in zip(made, made.values(), in_page(archives=list(made.values()))["archives"]):
            with self.subTest(name):
                self.assertEqual(found, read(data))

    def test_of_a_damaged_archive_no_other_files_are_read(self) -> None:
        one = test_archive.ONE
        made = [one[:at] + bytes([one[at] ^ flip]) + one[at + 1 :] for at in range(len(one)) for flip in (0x55, 1)]
        both = 0
        for at, (data, found) in enumerate(zip(made, in_page(archives=made)["archives"])):
            other = read(data)
            if "files" in found and "files" in other:
                both += 1
                self.assertEqual(found, other, at)
        self.assertGreater(both, 50)


if __name__ == "__main__":
    unittest.main()
