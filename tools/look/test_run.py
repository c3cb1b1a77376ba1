#!/usr/bin/env python3
"""What needs no browser: reading, packing, times of bytes, cuts, windows, pictures, the page's text. Ends with 1 where something fails."""
import base64
import concurrent.futures
import contextlib
import io
import json
import os
import re
import sys
import tempfile
import unittest.mock
import xml.etree.ElementTree as ET
import zipfile
from array import array

import examples
import measure
from look import SAMPLES, arguments, main, seen_of
from packing import packed, unpacked
from page import SCRIPTS, STYLES, page_of, script_of, style_of
from picture import waves_svg
from prepared import project_of
from program import Refused, run
from serial_times import FORMATS, decided, levels_of, readings
from wave import level_at, moved_names, read_wave

MANY = 1 << 40
PLAYED = ("chip-printf", "lcd-i2c")     # examples with a chip that a page plays


def plain_reading(vcd):
    """{name: [(cycle, level)]} by the plainest reading there is."""
    names, rows, cycle = {}, {}, 0
    for line in vcd.decode("ascii").split("\n"):
        if line.startswith("$var"):
            _, _, _, code, name, _ = line.split(" ")
            names.setdefault(code, name)
            rows.setdefault(name, [])
        elif line.startswith("#") and line[1:].isdigit():
            cycle = int(line[1:]) // 625
        elif line and line[0] in "01zx" and line[1:] in names:
            rows[names[line[1:]]].append((cycle, line[0]))
    return rows


def edges_of(wave):
    return [(edge >> 2, "01zx"[edge & 3]) for edge in wave]


def check_example(name):
    folder, us, script = examples.folder_of(name), examples.microseconds(name), examples.script_of(name)
    sent, report, vcd = run(folder, us, script, lambda stream: stream.read())
    plain = plain_reading(vcd)
    waves, cut = read_wave(io.BytesIO(vcd), MANY)
    assert cut is None and waves.names == list(plain), name
    for pin, index in zip(waves.names, waves.of):
        assert edges_of(waves.waves[index]) == plain[pin], (name, pin)
    assert len({wave.tobytes() for wave in waves.waves}) == len(waves.waves), "equal waves are kept once"
    text = packed(waves.waves)
    assert unpacked(text, [len(wave) for wave in waves.waves]) == waves.waves, name
    check_cut(vcd, plain)
    check_window(vcd, plain, us)
    check_bytes(name, folder, script, waves, sent)
    check_picture(waves, us)
    return name, len(text), report


def check_cut(vcd, plain):
    total = len({tuple(row) for row in plain.values()}) + 10
    waves, cut = read_wave(io.BytesIO(vcd), total)
    if cut is None:
        return
    assert cut == 1 or sum(map(len, waves.waves)) <= max(total, len(waves.waves)), cut
    for pin, index in zip(waves.names, waves.of):
        kept = edges_of(waves.waves[index])
        assert kept == [edge for edge in plain[pin] if edge[0] <= cut], pin


def check_window(vcd, plain, us):
    start, end = us * 16 // 3, us * 16 * 2 // 3
    whole = sorted(plain)[0]
    waves, cut = read_wave(io.BytesIO(vcd), MANY, start, end, lambda name: name == whole)
    assert cut is None
    for pin, index in zip(waves.names, waves.of):
        before = [level for cycle, level in plain[pin] if cycle <= start][-1]
        inside = [(start, before)] + [edge for edge in plain[pin] if start < edge[0] < end]
        if pin == whole:
            inside = [edge for edge in plain[pin] if edge[0] < end]
        assert edges_of(waves.waves[index]) == inside, (pin, edges_of(waves.waves[index])[:5], inside[:5])


def check_bytes(name, folder, script, waves, sent):
    """Each byte has a time, and a run that ends before it lacks the byte, one that ends after it has it."""
    ways = decided(readings(waves.waves[waves.of[waves.names.index("uno.1")]], sent), lambda us: len(run(folder, us, script)[0]))
    assert len(ways) == 1 and len(ways[0].times) == len(sent), f"{name}: the wave does not tell when bytes were sent"
    times = ways[0].times
    for i in sorted({0, len(sent) // 2, len(sent) - 1}) if sent else []:
        before, after = max(times[i] // 16, 1), times[i] // 16 + 1
        assert len(run(folder, before, script)[0]) <= i, (name, i)
        assert len(run(folder, after, script)[0]) > i, (name, i)


def check_picture(waves, us):
    names = moved_names(waves)[:12] or waves.names[:2]
    root = ET.fromstring(waves_svg(waves, names, 0, us * 16))
    texts = [text.text for text in root.iter("{http://www.w3.org/2000/svg}text")]
    assert root.tag == "{http://www.w3.org/2000/svg}svg" and all(name in texts for name in names)
    assert not [element for element in root.iter() if "style" in element.attrib or element.tag.endswith(("style", "script"))]


def check_page(name):
    """The page of an example: its policy has the hashes of its script and style, and nothing comes from outside; twice the same bytes."""
    script = examples.script_of(name)
    given = arguments([examples.folder_of(name), "--us", str(examples.microseconds(name))] + (["--script", script] if script else []))
    text = page_of(seen_of(given))
    assert text == page_of(seen_of(given)), f"{name}: two pages of one run differ"
    policy = re.search(r'Content-Security-Policy" content="([^"]*)"', text)[1]
    assert policy.startswith("default-src 'none';"), policy
    assert ("'wasm-unsafe-eval'; worker-src blob:" in policy) == (name in PLAYED) and ("wasm" in policy) == (name in PLAYED), "only a page with modules may play them"
    for tag in ("script", "style"):
        inside = re.findall(f"<{tag}>(.*?)</{tag}>", text, re.S)
        assert len(inside) == 1 and sha256(inside[0]) in policy, tag
    assert "@@" not in text and " style=" not in re.sub(r"<script>.*?</script>", "", text, flags=re.S)
    outside = re.findall(r"(?:https?:)?//[a-z][\w.-]*\.[a-z]+[^\s\"'<]*", re.sub(r"^\s*//.*$", "", text, flags=re.M))
    assert set(outside) <= {"http://www.w3.org/2000/svg"}, set(outside)
    data = json.loads(re.search(r'id="data">(.*?)</script>', text, re.S)[1])
    packed_waves = re.search(r'id="packed">(.*?)</script>', text, re.S)[1]
    assert len(unpacked(packed_waves, data["counts"])) == len(data["counts"]) and len(data["of"]) == len(data["names"])
    return len(text)


def sha256(text):
    import hashlib
    return base64.b64encode(hashlib.sha256(text.encode()).digest()).decode()


# ---- A line of bytes at two speeds

def frame(start, byte, bit, form="8N1"):
    """The changes of a frame at level 1 before and after it."""
    edges, last = [], 1
    for k, level in enumerate(levels_of(byte, form)):
        if level != last:
            edges.append(start + k * bit << 2 | level)
        last = level
    return edges


def check_two_speeds():
    sent, wave, start, ends = b"Hello, 9600 and 115200!\n" * 2, array("I", (1,)), 1000, []
    for i, byte in enumerate(sent):
        bit = 1664 if i < 24 else 136
        wave.extend(frame(start, byte, bit))
        ends.append(start + 10 * bit - 1)
        start += 10 * bit + (i % 3) * 700
    assert [way.times for way in readings(wave, sent)] == [ends]
    assert readings(wave, b"Hallo") == [] and readings(array("I", (1,)), b"x") == [] and readings(array("I", (1,)), b"")[0].times == []
    assert level_at(wave, 1000) == 0 and level_at(wave, 999) == 1


def sent_in(form, sent, bit, pause):
    """(the wave of bytes in a format, with `pause(i)` cycles after the i-th, and their last cycles)"""
    wave, start, ends = array("I", (1,)), 1000, []
    for i, byte in enumerate(sent):
        wave.extend(frame(start, byte, bit, form))
        ends.append(start + len(levels_of(byte, form)) * bit - 1)
        start = ends[-1] + 1 + pause(i)
    return wave, ends


def check_formats():
    """In each format bytes have their times: at once where frames follow one another without a pause, else a shorter run decides.
    Another use of the pin before them, and another format after them, are no hindrance."""
    for form in FORMATS:
        sent = bytes((37 * k + 5) % (1 << int(form[0])) for k in range(50))
        for bit in (8, 136, 1664):
            wave, ends = sent_in(form, sent, bit, lambda i: 0)
            assert readings(wave, sent)[0].times == ends, (form, bit)
            wave, ends = sent_in(form, sent, bit, lambda i: 333 + i % 3 * 700)
            for asked in (ends, [end + bit for end in ends], [end - bit for end in ends]):
                ways = decided(readings(wave, sent), lambda us, asked=asked: sum(end < 16 * us for end in asked))
                assert asked is not ends or [way.times for way in ways] == [ends], (form, bit, ways)
            assert ends in [way.times for way in decided(readings(wave, sent), lambda us: None)]
    first, ends = sent_in("8E2", b"Hello", 136, lambda i: 0)
    after = [edge + (200_000 << 2) for edge in sent_in("7O1", b"World", 1664, lambda i: 0)[0][1:]]
    other = array("I", [1, 400 << 2, 407 << 2 | 1, 500 << 2, 555 << 2 | 1]) + first[1:] + array("I", after)
    way, = readings(other, b"HelloWorld")
    assert way.times[:5] == ends and way.times[5] == 201_000 + 10 * 1664 - 1 and way.formats == [], way


def check_part_of_times():
    """Of a part of a run, the bytes that were sent in it and before it have their times; of a cut one those up to the cut."""
    folder = examples.folder_of("serial-hello")
    whole = seen_of(arguments([folder, "--us", "250000"])).times
    for words in (["--to", "105000"], ["--from", "50000", "--to", "105000"], ["--edges", "60"]):
        seen = seen_of(arguments([folder, "--us", "250000", *words]))
        expected = [time if time < seen.end else None for time in whole]
        assert seen.times == expected and None in expected and expected[0] is not None, (words, seen.times, expected)
        assert json.loads(re.search(r'id="data">(.*?)</script>', page_of(seen), re.S)[1])["times"][0] == whole[0]


# ---- What a run leaves out: a firmware that writes where nothing is and then halts, and a chip that ends

NOT_THERE, NO_INSTRUCTION = 0xD0, 0x0001
ENDS_AT_ONCE = bytes.fromhex("0061736d01000000" "010401600000" "03020100" "0503010001" "0715" "02" "066d656d6f7279" "0200" "0863686970496e6974" "0000" "0a05" "01030000" "0b")


def hex_text(program):
    data = b"".join(word.to_bytes(2, "little") for word in program)
    record = bytes((len(data), 0, 0, 0)) + data
    return f":{(record + bytes((-sum(record) & 255,))).hex().upper()}\n:00000001FF\n"


def make_leaving(folder):
    """A project in which a register is missing, a word is no instruction, and a chip traps."""
    write = [0x9300, NOT_THERE]             # STS 0xD0, r16
    wait = [0xE604, 0x950A, 0xF7F1]         # LDI r16, 100; DEC r16; BRNE .-4
    files = {
        "wokwi.toml": "[wokwi]\nversion = 1\nfirmware = 'f.hex'\n[[chip]]\nname = 'ends'\nbinary = 'ends.wasm'\n",
        "f.hex": hex_text(wait + write + wait + [NO_INSTRUCTION]),
        "ends.json": json.dumps({"name": "Ends", "pins": ["IN", "", "OUT"]}),
        "diagram.json": json.dumps({"version": 1, "parts": [{"type": "wokwi-arduino-uno", "id": "constructor", "left": 0, "top": 0},
                                                            {"type": "chip-ends", "id": "c1", "left": 0, "top": -100}], "connections": [["constructor:13", "c1:IN", "green", ["v-5", "*", "h3"]]]}),
    }
    for name, text in files.items():
        with open(os.path.join(folder, name), "w", encoding="utf-8") as file:
            file.write(text)
    with open(os.path.join(folder, "ends.wasm"), "wb") as file:
        file.write(ENDS_AT_ONCE)


def check_left_out():
    with tempfile.TemporaryDirectory() as box:
        make_leaving(box)
        seen = seen_of(arguments([box, "--us", "1000"]))
        halt = next(line for line in seen.report.split("\n") if " halt " in line)
        ignored = next(line for line in seen.report.split("\n") if " ignored " in line)
        assert ignored.endswith("0xD0") and halt.endswith("0x0001") and "chip c1 trap 1 at 0" in seen.report, seen.report
        for line, cycle in seen.firsts.items():
            assert line in run(box, cycle // 16 + 1)[1].split("\n"), line
            assert cycle == 0 or line not in run(box, cycle // 16)[1].split("\n"), line
        assert 0 < seen.firsts[ignored] < seen.firsts[halt] < 16000, seen.firsts
        none = seen_of(arguments([box, "--us", "1000", "--samples", "0"]))
        assert none.firsts == {}
        return page_of(seen)


def check_prepared():
    """A folder or an archive of Wokwi's editor is made a project; what is wrong with one is said, and a project stays what it is."""
    diagram = {"version": 1, "parts": [{"type": "wokwi-arduino-uno", "id": "uno"}, {"type": "wokwi-breadboard-mini", "id": "bb"}, {"type": "wokwi-led", "id": "led"}, {"type": "wokwi-logic-analyzer", "id": "s"}],
               "connections": [["led:A", "bb:2t.a", "", ["$bb"]], ["bb:2t.e", "uno:13", "green", []], ["led:C", "uno:GND.1", "black", []]]}
    with tempfile.TemporaryDirectory() as box, contextlib.redirect_stderr(io.StringIO()) as said:
        lab, page = os.path.join(box, "lab.zip"), os.path.join(box, "lab.html")
        with zipfile.ZipFile(lab, "w") as out:
            out.writestr("diagram.json", json.dumps(diagram))
            out.write(os.path.join(examples.folder_of("arduino-blink"), "arduino-blink.hex"), "sketch.ino.hex")
            out.writestr("script.txt", "# nothing is pressed\n")
        assert main([lab, "--us", "2s", "-o", page]) == 0, said.getvalue()
        assert said.getvalue().startswith("look: s (wokwi-logic-analyzer) only shows what the wave shows (--vcd), and is left out"), said.getvalue()
        with open(page, encoding="utf-8") as file:
            text = file.read()
        data = json.loads(re.search(r'id="data">(.*?)</script>', text, re.S)[1])
        assert [data["title"], len(data["made"]), data["script"], len(data["diagram"]["drawn"]["parts"])] == ["lab", 1, "# nothing is pressed\n", 2]
        assert "led led off lit 1" in data["report"], data["report"]
        folder = os.path.join(box, "lab")
        os.mkdir(folder)
        with zipfile.ZipFile(lab) as archive:
            archive.extractall(folder)
        assert project_of(folder, os.path.join(box, "one"), print) == os.path.join(box, "one", "made", "lab")
        assert project_of(examples.folder_of("button"), box, print) == examples.folder_of("button")
        with zipfile.ZipFile(lab, "a") as out:
            out.writestr("../x", "")
        with open(os.path.join(box, "empty.zip"), "wb") as file:
            file.write(b"PK\5\6" + bytes(18))
        os.unlink(os.path.join(folder, "sketch.ino.hex"))
        diagram["parts"][0]["type"] = "wokwi-pi-pico"
        for name, text in (("diagram.json", json.dumps(diagram)), ("sketch.ino", "void setup() {}\n")):
            with open(os.path.join(folder, name), "w", encoding="ascii") as file:
                file.write(text)
        for name, fault in (("lab.zip", "../x: this name leads out"), ("empty.zip", "it has no diagram.json"), ("lab", "there is no Arduino Uno")):
            said.truncate(0)
            assert main([os.path.join(box, name), "--us", "10", "-o", os.path.join(box, "none.html")]) == 1 and fault in said.getvalue(), said.getvalue()
        assert not os.path.exists(os.path.join(box, "none.html"))


def check_words():
    """Wrong words and a project that is refused end with a status, and write nothing."""
    with tempfile.TemporaryDirectory() as box:
        out = os.path.join(box, "page.html")
        assert [arguments(["x", "--us", text]).us for text in ("7", "7us", "60ms", "1.5s")] == [7, 7, 60000, 1500000]
        for words in (["x", "--us", "ten"], ["x", "--us", "10", "--from", "10"], ["x", "--us", "10", "--svg", "uno.1", "--svg-board", "3"], ["x", "--us", "10", "--edges", "0"]):
            with quiet():
                try:
                    main(words + ["-o", out])
                    raise AssertionError(words)
                except SystemExit as ended:
                    assert ended.code == 2, words
        with open(os.path.join(box, "box.ino"), "w", encoding="ascii"):
            pass
        with quiet():
            with contextlib.redirect_stderr(io.StringIO()) as said:
                assert main([box, "--us", "10", "-o", out]) == 4
            assert "has no wokwi.toml" in said.getvalue() and f"./mudflatjar play {box} --page PAGE.html" in said.getvalue(), said.getvalue()
            assert main([examples.folder_of("blink"), "--us", "10", "-o", os.path.join(box, "no", "such.html")]) == 1
        assert not os.path.exists(out)
        with unittest.mock.patch("webbrowser.open", return_value=False), contextlib.redirect_stderr(io.StringIO()) as said:
            assert main([examples.folder_of("blink"), "--us", "10", "-o", out, "--open"]) == 0
        assert said.getvalue().endswith("look: there is no browser to open it in\n"), said.getvalue()


class quiet:
    """Nothing on standard error, of the program neither."""

    def __enter__(self):
        sys.stderr.flush()
        self.kept, self.none = os.dup(2), os.open(os.devnull, os.O_WRONLY)
        os.dup2(self.none, 2)

    def __exit__(self, *_):
        sys.stderr.flush()
        os.dup2(self.kept, 2)
        os.close(self.kept)
        os.close(self.none)


def check_measured():
    """The page that measure.py opens is of its random wave: each change is there, and the page holds the waves."""
    vcd, end = measure.random_wave(1000)
    waves, _ = read_wave(io.BytesIO(vcd), 2000)
    rows = plain_reading(vcd)
    assert {name: edges_of(waves.waves[at]) for name, at in zip(waves.names, waves.of)} == rows, "other waves"
    assert packed(waves.waves) in page_of(measure.run_of(waves, end))


def everything():
    bad = 0
    jobs = [(f"look, wave of {name}", check_example, (name,)) for name in examples.names()]
    jobs += [(f"look, page of {name}", check_page, (name,)) for name in ("button", "chip-echo", *PLAYED, "seven-segment")]
    jobs += [("look, bytes at two speeds", check_two_speeds, ()), ("look, bytes in each format", check_formats, ()), ("look, bytes of a part of a run", check_part_of_times, ()), ("look, what a run leaves out", check_left_out, ()), ("look, the page that is measured", check_measured, ())]
    with concurrent.futures.ThreadPoolExecutor(4) as pool:
        for name, future in [(name, pool.submit(call, *values)) for name, call, values in jobs]:
            try:
                future.result()
                print(f"{name}: ok")
            except (AssertionError, Refused, StopIteration, ValueError, KeyError, ET.ParseError) as error:
                print(f"{name}: failed: {type(error).__name__} {error}")
                bad = 1
    for name, check in (("words", check_words), ("folders and archives of the editor", check_prepared)):
        try:
            check()
            print(f"look, {name}: ok")
        except AssertionError as error:
            print(f"look, {name}: failed: {error}")
            bad = 1
    return bad


if __name__ == "__main__":
    assert SAMPLES and SCRIPTS and STYLES and script_of(SCRIPTS) and style_of(STYLES)
    sys.exit(everything())
