#!/usr/bin/env python3
"""The page in a headless Chromium: what a user does, and what comes of it."""
import json
import os
import shutil
import subprocess
import sys
import tempfile
import time
import unittest
import zipfile

HERE = os.path.dirname(os.path.abspath(__file__))
ROOT = os.path.realpath(os.path.join(HERE, "..", "..", ".."))
PAGE = os.environ.get("MUDFLATJAR_PAGE", os.path.join(ROOT, "target", "web", "mudflatjar.html"))
PICTURES = os.environ.get("PICTURES")
sys.dont_write_bytecode = True
sys.path.insert(0, os.path.join(ROOT, "tools", "look"))
from browser import Browser

HELP = """
window.until = async test => { for (let k = 0; k < 1500; k++) { if (test()) return true; await new Promise(done => setTimeout(done, 20)); } return false; };
window.idle = () => until(() => !it.machine.running && !document.querySelector('.go').classList.contains('busy'));
window.pick = async name => { const list = document.querySelector('.top select'); list.value = name; list.onchange(); await idle(); };
window.press = text => [...document.querySelectorAll('button')].find(button => button.textContent === text).click();
window.textOf = path => new TextDecoder().decode(it.project.files.get(path));
window.said = () => document.querySelector('.said').textContent;
0
"""


class Page(unittest.TestCase):
    @classmethod
    def setUpClass(cls):
        cls.browser = Browser(1400, 900)

    @classmethod
    def tearDownClass(cls):
        cls.browser.close()

    def setUp(self):
        self.open()

    def tearDown(self):
        faults, requests = self.browser.faults[:], self.browser.requests[:]
        self.browser.faults.clear()
        self.browser.requests.clear()
        self.assertEqual(faults, [])
        self.assertEqual([url for url in requests if not url.startswith(("file:", "blob:", "about:"))], [])

    def open(self, address=""):
        self.browser.open(PAGE, address)
        self.js(HELP)

    def js(self, text):
        return self.browser.js(text)

    def picture(self, name):
        if PICTURES:
            self.browser.picture(os.path.join(PICTURES, name + ".png"))

    def typed(self, path, text):
        """Puts a text into the editor, as typing does."""
        self.js(f"it.editor.show({json.dumps(path)}); it.editor.text.value = {json.dumps(text)}; it.editor.text.dispatchEvent(new Event('input')); 0")

    def saved(self):
        """The page of the run that the list "save" makes."""
        self.js("window.kept = null; if (!window.making) { window.making = URL.createObjectURL; URL.createObjectURL = blob => { if (blob.type === 'text/html') blob.text().then(text => { window.kept = text; }); return window.making(blob); }; } 0")
        self.js("(() => { const list = document.querySelector('select[aria-label=save]'); list.value = 'page'; list.onchange(); })()")
        return self.js("until(() => window.kept).then(() => window.kept)")

    def test_an_example_runs_and_is_shown(self):
        self.js("pick('button')")
        self.assertEqual(self.js("it.run.title"), "button")
        self.assertEqual(self.js("it.run.cycles"), 960000)
        with open(os.path.join(ROOT, "examples", "button", "expected", "report.txt"), encoding="ascii") as file:
            self.assertEqual(self.js("it.run.report"), file.read())
        self.assertFalse(self.js("document.querySelector('.stage-of-run').hidden"))
        self.assertRegex(self.js("said()"), r"^60000 µs in [\d.]+ ms$")
        self.picture("button")

    def test_every_example_runs(self):
        names = self.js("it.data.examples.map(example => example.name)")
        self.assertGreater(len(names), 20)
        for name in names:
            with self.subTest(name):
                self.js(f"pick({json.dumps(name)})")
                self.assertEqual(self.js("[it.run && it.run.title, document.querySelector('.complaint').hidden]"), [name, True], self.js("said()"))
                self.picture(name)

    def test_what_a_chip_shows_is_played_here_and_in_a_page_that_is_saved(self):
        self.js("pick('chip-display')")
        self.js("playChips(it.run)")
        shown = "(() => { const part = it.run.parts.find(part => part.id === 'bars1'), lit = t => frameAt(it.run, part, t).pixels.reduce((n, byte) => n + (byte === 255 ? 1 : 0), 0); return [lit(0), lit(800000), lit(it.run.to), it.run.unplayed.length]; })()"
        rows = [line.split(" ")[4] for line in self.js("it.run.report").split("\n") if " row " in line]
        there = self.js(shown)
        self.assertEqual([there[0], there[2], there[3]], [0, sum(row.count("FF") for row in rows), 0])
        self.assertTrue(0 < there[1] < there[2], there)
        self.js("it.look.go(it.run.to); 0")
        self.picture("chip-display")
        kept = self.saved()
        self.assertIn("'wasm-unsafe-eval'; worker-src blob:", kept[:2000])
        with tempfile.TemporaryDirectory() as box:
            name = os.path.join(box, "kept.html")
            with open(name, "w", encoding="utf-8") as file:
                file.write(kept)
            self.browser.open(name)
            self.assertEqual(self.js(shown), there)
        self.open()
        self.js("pick('button')")
        kept = self.saved()
        self.assertNotIn("wasm-unsafe-eval", kept[:2000])

    def test_a_sensor_is_moved_by_its_slider_and_a_button_bounces(self):
        self.js("pick('button')")
        parts = [{"type": "wokwi-arduino-uno", "id": "uno"}, {"type": "wokwi-hc-sr04", "id": "u", "top": -150}, {"type": "wokwi-ky-040", "id": "k", "top": 250},
                 {"type": "wokwi-pushbutton", "id": "b", "top": 250, "left": 200}, {"type": "wokwi-pushbutton", "id": "c", "top": 250, "left": 300, "attrs": {"bounce": "0"}}]
        self.typed("diagram.json", json.dumps({"version": 1, "parts": parts, "connections": [["b:1.l", "uno:2"], ["b:2.l", "uno:GND.1"]]}))
        self.typed("script.txt", "")
        self.js("press('Run'); idle()")
        self.assertEqual(self.js("[...document.querySelectorAll('.hand-line b')].map(it => it.textContent)"), ["b", "c", "u", "k"])
        self.js("(() => { it.look.go(1600); const slide = document.querySelector('input[aria-label=\"u distance\"]'); slide.value = '20'; slide.dispatchEvent(new Event('input')); slide.dispatchEvent(new Event('change')); })(); idle()")
        self.assertEqual(self.js("textOf('script.txt')"), "100us set u distance 20\n")
        self.assertEqual(self.js("[[...it.run.wave('u.control').t], controlAt(it.run, 'u', 'distance', 1599, true), controlAt(it.run, 'u', 'distance', 1600, true)]"), [[0, 1601, 1782], "400 cm", "20 cm"])
        self.js("document.querySelector('.hand label input').checked = true; it.look.go(16000); [...document.querySelectorAll('.hand-line button')].filter(it => it.textContent === 'press').forEach(it => it.click()); idle()")
        self.assertEqual(self.js("textOf('script.txt')"), "100us set u distance 20\n1000us press b bounce\n1000us press c\n")
        self.assertEqual(self.js("it.run.inputs.b.length - it.run.inputs.c.length"), 6)
        self.js("it.look.go(32000); document.querySelector('button[title=\"k turn 1\"]').click(); idle()")
        self.assertIn("2000us set k turn 1\n", self.js("textOf('script.txt')"))
        self.assertEqual(self.js("it.look.board.texts({ t: it.run.to - 1, since: it.run.to - 1 }).find(([id]) => id === 'k')"), ["k", "1 steps"])
        self.picture("sensors")
        self.typed("script.txt", "1us set u distance 1\n")
        self.js("press('Run'); idle()")
        self.assertEqual(self.js("document.querySelector('.complaint').textContent"), "script line 1: u takes a distance from 2 to 400 cm, and not 1")

    def test_a_button_is_pressed_at_the_cursor(self):
        self.js("pick('button')")
        before = self.js("textOf('script.txt')")
        self.js("it.look.second(700000); it.look.go(40000); press('press'); idle()")
        self.assertIn("2500us press btn1\n", self.js("textOf('script.txt')"))
        self.assertEqual(self.js("it.look.view.t"), 40000)
        self.assertEqual(self.js("it.look.view.b"), 700000)
        self.assertEqual(self.js("it.run.inputs.btn1[1]"), [40000, 1])
        self.assertEqual(self.js("document.querySelector('.hand-line button').textContent"), "release")
        self.js("press('release'); idle()")
        self.assertIn("2500us release btn1\n", self.js("textOf('script.txt')"))
        self.run_for("200 ms")
        self.js("it.look.go(16); press('tap'); idle()")
        self.assertTrue(self.js("textOf('script.txt')").count("\n") >= before.count("\n") + 3)
        self.assertIn("120001us release btn1\n", self.js("textOf('script.txt')"))

    def test_a_part_of_the_board_is_used_with_the_mouse(self):
        self.js("pick('button')")
        spot = self.js("(() => { const part = [...document.querySelectorAll('.board g.part')].find(g => g.querySelector(':scope > title') && g.querySelector(':scope > title').textContent.startsWith('btn1')), r = part.getBoundingClientRect(); return [r.x + r.width / 2, r.y + r.height / 2]; })()")
        self.js("it.look.go(32000); 0")
        self.browser.click(*spot)
        self.js("idle()")
        self.assertIn("2000us press btn1\n", self.js("textOf('script.txt')"))

    def test_a_slider_moves_a_wiper(self):
        self.js("pick('pot-serial')")
        self.js("(() => { it.look.go(1600); const slide = document.querySelector('.hand-line input[type=range]'); slide.value = 321; slide.dispatchEvent(new Event('input')); slide.dispatchEvent(new Event('change')); })(); idle()")
        self.assertRegex(self.js("textOf('script.txt')"), r"(?m)^100us set \w+ 321$")

    def test_a_complaint_marks_its_part(self):
        self.js("pick('button')")
        self.typed("diagram.json", self.js("textOf('diagram.json').replace('wokwi-led', 'wokwi-lex')"))
        self.js("document.querySelector('.go').click(); idle()")
        self.assertEqual(self.js("document.querySelector('.complaint strong').textContent"), "button/diagram.json: refused 42 TypeUnknown part 3")
        self.assertIn('"wokwi-lex"', self.js("document.querySelector('.marks mark').textContent"))
        self.assertIn("What to do", self.js("document.querySelector('.complaint').textContent"))
        self.assertEqual(self.js("document.querySelector('.tabs .bad').textContent"), "diagram.json")
        self.picture("complaint")
        self.typed("diagram.json", self.js("textOf('diagram.json').replace('wokwi-lex', 'wokwi-led')"))
        self.assertIsNone(self.js("document.querySelector('.marks mark')"))
        self.js("document.querySelector('.go').click(); idle()")
        self.assertTrue(self.js("document.querySelector('.complaint').hidden"))

    def test_a_complaint_marks_its_line_of_the_script(self):
        self.js("pick('button')")
        self.typed("script.txt", "10us press btn1\n20us push btn1\n")
        self.js("document.querySelector('.go').click(); idle()")
        self.assertEqual(self.js("document.querySelector('.marks mark').textContent"), "20us push btn1")
        self.typed("diagram.json", "{")
        self.js("document.querySelector('.go').click(); idle()")
        self.assertIn("refused 40 JsonText", self.js("document.querySelector('.complaint strong').textContent"))
        self.typed("diagram.json", "[" * 200000)
        self.js("document.querySelector('.go').click(); idle()")
        self.assertIn("refused 40 JsonText", self.js("document.querySelector('.complaint strong').textContent"))

    def test_a_long_run_is_stopped_and_the_next_one_runs(self):
        self.js("pick('arduino-blink')")
        self.js("(() => { const time = document.querySelector('.run-time'); time.value = '10 s'; time.onchange(); document.querySelector('.go').click(); })(); 0")
        time.sleep(0.4)
        self.assertFalse(self.js("document.querySelector('.top button:nth-of-type(4)').disabled"))
        self.js("press('Stop'); idle()")
        self.assertEqual(self.js("said()"), "stopped")
        self.js("(() => { const time = document.querySelector('.run-time'); time.value = '2 ms'; time.onchange(); document.querySelector('.go').click(); })(); idle()")
        self.assertEqual(self.js("it.run.cycles"), 32000)

    def test_keys_of_the_editor_do_not_move_the_look(self):
        self.js("pick('button')")
        self.js("it.editor.show('script.txt'); it.editor.text.focus(); it.editor.text.setSelectionRange(0, 0); 0")
        for key in ("ArrowRight", "b", " "):
            self.browser.key(key)
        self.assertEqual(self.js("[it.look.view.t, it.look.view.b, it.look.view.playing]"), [0, None, False])
        self.js("document.activeElement.blur(); 0")
        self.browser.key("ArrowRight")
        self.assertGreater(self.js("it.look.view.t"), 0)

    def test_a_link_holds_the_project(self):
        self.js("pick('serial-hello')")
        self.js("(async () => { const list = [...document.querySelectorAll('.top select')].pop(); list.value = 'link'; await list.onchange(); await until(() => location.hash.startsWith('#p=')); })()")
        address, serial = self.js("location.hash"), self.js("new TextDecoder().decode(it.run.serial.bytes)")
        self.assertLess(len(address), 8000)
        self.open(address)
        self.js("idle()")
        self.assertEqual(self.js("[it.project.name, it.us]"), ["serial-hello", 350000])
        self.assertEqual(self.js("new TextDecoder().decode(it.run.serial.bytes)"), serial)
        self.open(address[:len(address) // 2])
        self.assertIn("The link is cut", self.js("document.querySelector('.advice').textContent"))

    def handed(self, place, *files):
        """Hands files to one of the two hidden fields."""
        self.browser.call("DOM.enable")
        root = self.browser.call("DOM.getDocument")["root"]["nodeId"]
        field = self.browser.call("DOM.querySelector", nodeId=root, selector=f".top input[type=file]:nth-of-type({place})")["nodeId"]
        self.browser.call("DOM.setFileInputFiles", files=list(files), nodeId=field)
        self.js("idle()")

    def test_an_archive_is_opened_and_saved_again(self):
        folder = os.path.join(ROOT, "examples", "chip-counter")
        with tempfile.TemporaryDirectory() as box:
            archive = os.path.join(box, "lab.zip")
            with zipfile.ZipFile(archive, "w", zipfile.ZIP_DEFLATED) as out:
                for name in ("diagram.json", "wokwi.toml", "chip-counter.hex", "counter.json", "counter.wasm"):
                    out.write(os.path.join(folder, name), name)
            self.handed(2, archive)
            self.js("until(() => it.run)")
            self.assertEqual(self.js("[it.project.name, it.project.files.size, it.run.title]"), ["lab", 5, "lab"])
            self.save(box, "project")
            with zipfile.ZipFile(os.path.join(box, "lab.zip")) as saved, open(os.path.join(folder, "counter.wasm"), "rb") as module:
                self.assertEqual(saved.read("lab/counter.wasm"), module.read())

    def save(self, folder, what):
        before = set(os.listdir(folder))
        self.browser.call("Browser.setDownloadBehavior", behavior="allow", downloadPath=folder)
        for name in before & {"lab.zip"}:
            os.remove(os.path.join(folder, name))
            before.discard(name)
        self.js(f"(() => {{ const list = [...document.querySelectorAll('.top select')].pop(); list.value = '{what}'; list.onchange(); }})()")
        for _ in range(500):
            new = [name for name in os.listdir(folder) if name not in before and not name.endswith(".crdownload") and not name.startswith(".")]
            if new:
                return os.path.join(folder, new[0])
            time.sleep(0.02)
        self.fail(f"{what} was not saved")

    def test_a_wave_a_report_and_a_page_are_saved(self):
        self.js("pick('counter')")
        with tempfile.TemporaryDirectory() as box:
            with open(self.save(box, "wave"), "rb") as saved, open(os.path.join(ROOT, "examples", "counter", "expected", "run.vcd"), "rb") as expected:
                self.assertEqual(saved.read(), expected.read())
            with open(self.save(box, "report"), encoding="ascii") as saved:
                self.assertEqual(saved.read(), self.js("it.run.report"))
            rows = self.js("JSON.stringify([it.run.names, it.run.waves.map(wave => [...wave.t])])")
            page = self.save(box, "page")
            self.browser.open(page)
            self.assertEqual(self.js("JSON.stringify([it.run.names, it.run.waves.map(wave => [...wave.t])])"), rows)

    def test_a_hex_file_alone_is_an_uno_alone(self):
        self.handed(2, os.path.join(ROOT, "examples", "arduino-blink", "arduino-blink.hex"))
        self.js("until(() => it.run)")
        self.assertEqual(self.js("it.run.parts.map(part => part.type)"), ["wokwi-arduino-uno"])
        self.assertIn("an Uno alone", self.js("document.querySelector('.advice').textContent"))

    def drop(self, path):
        for kind in ("dragEnter", "dragOver", "drop"):
            self.browser.call("Input.dispatchDragEvent", type=kind, x=700, y=500, data={"items": [], "files": [path], "dragOperationsMask": 1})

    def test_a_folder_and_a_file_are_dropped_on_the_page(self):
        with tempfile.TemporaryDirectory() as box:
            folder = os.path.join(box, "press")
            shutil.copytree(os.path.join(ROOT, "examples", "button"), folder)
            self.drop(folder)
            self.assertTrue(self.js("until(() => it.run)"), self.js("said()"))
            self.assertEqual(self.js("[it.project.name, it.project.files.has('expected/report.txt'), it.run.inputs.btn1.length > 1]"), ["press", True, True])
        self.drop(os.path.join(ROOT, "examples", "arduino-blink", "arduino-blink.hex"))
        self.assertTrue(self.js("until(() => document.querySelector('.advice').textContent.includes('arduino-blink.hex is the firmware now'))"), self.js("said()"))

    PLUGGED = {"version": 1, "parts": [{"type": "wokwi-arduino-uno", "id": "uno"}, {"type": "wokwi-breadboard-mini", "id": "bb"}, {"type": "wokwi-led", "id": "led"}, {"type": "wokwi-microsd-card", "id": "sd"}],
               "connections": [["led:A", "bb:2t.a", "", ["$bb"]], ["bb:2t.e", "uno:13", "green", []], ["led:C", "uno:GND.1", "black", []]]}

    def test_a_folder_with_a_breadboard_runs_as_it_is(self):
        with tempfile.TemporaryDirectory() as box:
            source, folder = os.path.join(box, "plugged"), os.path.join(box, "wired")
            os.mkdir(source)
            shutil.copy(os.path.join(ROOT, "examples", "arduino-blink", "arduino-blink.hex"), source)
            with open(os.path.join(source, "diagram.json"), "w", encoding="ascii") as file:
                json.dump(self.PLUGGED, file)
            self.drop(source)
            self.assertTrue(self.js("until(() => it.run)"), self.js("said()"))
            drawn = "[document.querySelectorAll('.board .breadboard').length, it.run.scenery[0].columns, it.run.cycles, it.run.parts.map(part => part.id)]"
            self.assertEqual(self.js(drawn), [1, 17, 16000000, ["uno", "led"]])
            self.assertEqual(self.js("[...document.querySelectorAll('.advice p')].map(line => line.textContent)"),
                             ["There was no wokwi.toml, so the firmware is arduino-blink.hex.", "Left out: sd (wokwi-microsd-card): is not there."])
            self.assertEqual(self.js("JSON.parse(textOf('diagram.json')).parts.length"), 4, "the project's own diagram stays")
            report = self.js("it.run.report")
            self.picture("breadboard")
            subprocess.run([sys.executable, "-B", os.path.join(ROOT, "tools", "wokwi", "lower.py"), "--anyway", source, folder], check=True, stderr=subprocess.DEVNULL)
            self.js("{ window.earlier = it.run; 0 }")
            self.drop(folder)
            self.assertTrue(self.js("until(() => it.run && it.run !== earlier)"), self.js("said()"))
            self.assertEqual(self.js(drawn), [1, 17, 16000000, ["uno", "led"]])
            self.assertEqual(self.js("it.run.report"), report, "what the page makes of a folder is what the tool makes of it")

    def test_a_complaint_of_a_script_is_marked_where_the_folder_is_lowered(self):
        with tempfile.TemporaryDirectory() as box:
            shutil.copy(os.path.join(ROOT, "examples", "arduino-blink", "arduino-blink.hex"), box)
            for name, text in (("diagram.json", json.dumps(self.PLUGGED)), ("script.txt", "5us press led\n")):
                with open(os.path.join(box, name), "w", encoding="ascii") as file:
                    file.write(text)
            self.drop(box)
            self.assertTrue(self.js("until(() => !document.querySelector('.complaint').hidden)"), self.js("said()"))
            self.assertIn("script.txt: refused 83 ScriptPart", self.js("document.querySelector('.complaint strong').textContent"))
            self.assertEqual(self.js("document.querySelector('.marks mark').textContent"), "5us press led")

    def archive(self, box, files):
        """A ZIP archive as Wokwi's editor packs one: the files at its top."""
        path = os.path.join(box, "lab.zip")
        with zipfile.ZipFile(path, "w", zipfile.ZIP_DEFLATED) as out:
            for name, data in files.items():
                out.writestr(name, data)
        return path

    def test_an_archive_of_the_editor_runs_with_a_hex_file_and_else_says_how_to_get_one(self):
        folder = os.path.join(ROOT, "tools", "wokwi", "projects", "rgb-led")
        with tempfile.TemporaryDirectory() as box:
            files = {}
            for name in ("diagram.json", "sketch.ino"):
                with open(os.path.join(folder, name), "rb") as file:
                    files[name] = file.read()
            files["wokwi-project.txt"] = b"Downloaded from the editor\n"
            self.handed(2, self.archive(box, files))
            self.assertTrue(self.js("until(() => it.project.files.size)"))
            self.assertEqual(self.js("[it.project.name, it.run, [...document.querySelectorAll('.advice p')].length]"), ["lab", None, 1])
            self.assertIn("Export Compiled Binary", self.js("document.querySelector('.advice').textContent"))
            self.js("it.editor.show('sketch.ino'); 0")
            self.assertEqual(self.js("[document.querySelector('.hint').hidden, it.editor.text.readOnly]"), [False, True])
            self.picture("archive-without-firmware")
            self.js("it.editor.show('diagram.json'); 0")
            self.assertEqual(self.js("[document.querySelector('.hint').hidden, it.editor.text.readOnly]"), [True, False])
            with open(os.path.join(ROOT, "examples", "fade", "fade.hex"), "rb") as file:
                files["sketch.ino.hex"] = file.read()
            self.handed(2, self.archive(box, files))
            self.assertTrue(self.js("until(() => it.run)"), self.js("said()"))
            self.assertEqual(self.js("it.run.parts.map(part => part.id)"), ["uno", "rgb1-r", "rgb1-g", "rgb1-b", "rgb2-r", "rgb2-g", "rgb2-b", *self.js("it.run.parts.slice(7).map(part => part.id)")])
            self.assertTrue(self.js("it.run.made.some(note => note.startsWith('rgb1 (wokwi-rgb-led) is rgb1-r'))"))
            self.picture("archive-with-firmware")
            page = self.save(box, "page")
            self.browser.open(page)
            self.assertEqual(self.js("it.run.made.length"), 2)

    def test_an_archive_that_leads_out_of_its_folder_is_refused(self):
        self.js("pick('button')")
        with tempfile.TemporaryDirectory() as box:
            self.handed(2, self.archive(box, {"diagram.json": b"{}", "../x.hex": b""}))
            self.assertTrue(self.js("until(() => !document.querySelector('.complaint').hidden)"))
            self.assertEqual(self.js("[document.querySelector('.complaint').textContent, it.project.name]"), ["lab.zip: ../x.hex: this name leads out of the archive's folder", "button"])

    def run_for(self, text):
        self.js(f"{{ const time = document.querySelector('.run-time'); time.value = '{text}'; time.dispatchEvent(new Event('change')); press('Run'); }}")
        self.js("idle()")
        return self.js("it.look.view.chosen")

    def test_a_longer_run_has_rows_of_what_moves_in_it(self):
        self.js("pick('button')")
        first = self.run_for("1 us")
        whole = self.run_for("60 ms")
        self.assertLess(len(first), len(whole))
        self.js("it.look.choose('uno.13', false)")
        self.assertEqual(self.run_for("50 ms"), [name for name in whole if name != "uno.13"])

    def test_a_folder_without_firmware_says_what_to_do(self):
        with tempfile.TemporaryDirectory() as box:
            for name, text in (("diagram.json", '{"version": 1, "parts": [{"type": "wokwi-arduino-uno", "id": "uno"}], "connections": []}'), ("sketch.ino", "void setup() {}\nvoid loop() {}\n")):
                with open(os.path.join(box, name), "w", encoding="ascii") as file:
                    file.write(text)
            self.handed(2, os.path.join(box, "diagram.json"), os.path.join(box, "sketch.ino"))
            self.js("until(() => it.project.files.size)")
            self.assertIn("Export Compiled Binary", self.js("document.querySelector('.advice').textContent"))
            self.handed(2, os.path.join(ROOT, "examples", "arduino-blink", "arduino-blink.hex"))
            self.js("until(() => it.run)")
            self.assertIn("arduino-blink.hex is the firmware now", self.js("document.querySelector('.advice').textContent"))

    def test_it_is_read_on_a_telephone_and_in_the_dark(self):
        try:
            self.browser.size(390, 800)
            self.browser.dark(True)
            self.js("pick('shift-out')")
            self.assertLessEqual(self.js("document.documentElement.scrollWidth"), 390)
            self.picture("telephone")
        finally:
            self.browser.size(1400, 900)
            self.browser.dark(False)


if __name__ == "__main__":
    unittest.main()
