#!/usr/bin/env python3
"""The pages in a headless Chromium: every example opens without a message, keys and mouse do what the page says, cursors show what the
wave has. Ends with 1 where something fails, and says that it was skipped where there is no Chromium."""
import json
import os
import re
import shutil
import sys
import tempfile
import time

import examples
import measure
import test_played
from browser import Browser
from look import arguments, seen_of
from page import page_of
from program import run
from test_run import make_leaving, plain_reading


def write_page(box, name, more=()):
    script = examples.script_of(name)
    words = [examples.folder_of(name), "--us", str(examples.microseconds(name)), "--samples", "0", *more] + (["--script", script] if script else [])
    path = os.path.join(box, name + ".html")
    with open(path, "w", encoding="utf-8") as file:
        file.write(page_of(seen_of(arguments(words))))
    return path


def wave_of(name):
    return run(examples.folder_of(name), examples.microseconds(name), examples.script_of(name), lambda stream: stream.read())


def silent(page):
    outside = [url for url in page.requests if not url.startswith(("file:", "about:", "blob:"))]
    assert not page.faults and not outside, (page.faults[:2], outside[:2])


def soon(page, condition, seconds=20):
    """Waits until it holds: on a busy machine a page draws late."""
    end = time.monotonic() + seconds
    while not page.js(condition):
        assert time.monotonic() < end, condition
        time.sleep(0.05)


def check_opens(page, box, name):
    """Opens without a message; the board has each part; after the last cycle lights and inputs are those of the report."""
    page.open(write_page(box, name))
    parts, titles = page.js("[it.run.parts.filter(p => !p.hidden).map(p => p.id), [...document.querySelectorAll('.look .board .part > title')].map(t => t.textContent)]")
    assert len(parts) == len(titles) and all(any(title.startswith(part + ":") for title in titles) for part in parts), (name, titles)
    assert page.js("it.view.rows.length") > 0 and page.js("document.querySelector('.rows').width") > 300, name
    page.js("it.go(it.run.to - 1)")
    shown = dict(page.js("it.board.texts({ t: it.view.t, since: it.view.t })"))
    for line in page.js("it.run.report").split("\n"):
        words = line.split(" ")
        if words[0] == "led":
            assert shown[words[1]].startswith(words[2]), (name, line, shown)
        if words[0] == "input":
            value = page.js(f"inputAt(it.run, {words[1]!r}, it.view.t)")
            assert str(value) == words[2], (name, line, value)
    silent(page)


def check_keys(page, box):
    """Three edges by the keyboard, a cycle back, ends, rows, folds, the second cursor."""
    path = write_page(box, "shift-out")
    plain = plain_reading(wave_of("shift-out")[2])["uno.12"]
    page.open(path, "#t=0us&pins=uno.12,sr1.Q0")
    page.key("ArrowDown")
    page.key("ArrowDown")
    for _ in range(4):
        if page.js("it.view.picked") == "uno.12":
            break
        page.key("ArrowDown")
    assert page.js("it.view.picked") == "uno.12", page.js("it.view.picked")
    for cycle, level in plain[1:4]:
        page.key("ArrowRight")
        assert page.js("it.view.t") == cycle, (page.js("it.view.t"), cycle)
        text = f"{cycle / 16:,.4f}".rstrip("0").rstrip(".")
        assert page.js("document.querySelector('.at-a').textContent") == f"A {text} µs (cycle {cycle:,})"
        assert page.js("LEVELS[levelAt(it.run.wave('uno.12'), it.view.t)]") == level
    page.key("b")
    page.key("ArrowRight")
    gap = plain[4][0] - plain[3][0]
    told = page.js("it.elements.gap.textContent")
    assert told.startswith(f"A to B: {gap:,} cycles = ") and "uno.12 high for" in told, told
    page.key("ArrowLeft", shift=True)
    assert page.js("it.view.t") == plain[4][0] - 1
    page.key("End")
    assert page.js("it.view.t") == 1600000
    page.key("Home")
    assert page.js("it.view.t") == 0
    page.key("+")
    assert page.js("it.view.to - it.view.from") == 800000
    page.key("0")
    assert page.js("it.view.to - it.view.from") == 1600000
    rows = page.js("it.view.rows.length")
    page.key("Enter")
    assert page.js("it.view.rows.length") < rows and page.js("it.view.folded.has('uno')")
    page.key("Enter")
    assert page.js("it.view.rows.length") == rows
    assert "uno" in page.js("it.elements.heard.textContent")
    silent(page)


def check_mouse(page, box):
    """A click near an edge snaps to it, shift sets B, the wheel zooms about the mouse, a drag moves, a pin of the board picks its row."""
    path = write_page(box, "shift-out")
    page.open(path, "#t=0us")
    edge = plain_reading(wave_of("shift-out")[2])["sr1.Q2"][1][0]
    place = page.js(f"""(() => {{ let at = null; eachRowInView(it.pane, (row, top, height) => {{ if (row.name === 'sr1.Q2' && row.kind === 'wave') at = top + height / 2; }});
        const box = it.pane.rows.getBoundingClientRect(); return at === null ? null : [box.left + it.pane.xOf({edge}), box.top + at]; }})()""")
    page.click(place[0] + 3, place[1])
    assert page.js("it.view.t") == edge
    page.click(place[0] + 200, place[1], shift=True)
    assert page.js("it.view.b") > edge and page.js("it.view.t") == edge
    before = page.js(f"it.pane.tOf({place[0]} - it.pane.rows.getBoundingClientRect().left)")
    page.mouse("mouseWheel", place[0], place[1], deltaX=0, deltaY=-200)
    after = page.js(f"it.pane.tOf({place[0]} - it.pane.rows.getBoundingClientRect().left)")
    assert page.js("it.view.to - it.view.from") < 1600000 and abs(before - after) < 1000, (before, after)
    was = page.js("it.view.from")
    page.drag(place[0], place[1], place[0] + 60, place[1])
    assert page.js("it.view.from") < was and page.js("it.view.t") == edge
    dot = page.js("(() => { const d = [...document.querySelectorAll('.board .pin')].find(e => e.textContent.startsWith('led5.A:')).getBoundingClientRect(); return [d.x + d.width / 2, d.y + d.height / 2]; })()")
    page.click(*dot)
    assert page.js("it.pickedName()") == "sr1.Q5", page.js("it.pickedName()")
    view = page.js("it.frame.view[2]")
    page.mouse("mouseWheel", dot[0], dot[1], deltaX=0, deltaY=-150)
    assert page.js("it.frame.view[2]") < view
    silent(page)


def check_tools(page, box):
    """The search for a long level, a typed time, the list of rows, a decoder, the bytes, playing, and the view in the address."""
    plain = plain_reading(wave_of("shift-out")[2])["sr1.Q3"]
    page.open(write_page(box, "shift-out"), "#t=0us")
    page.js("it.reveal('sr1.Q3'); it.finder.querySelector('input').value = '5ms'; it.finder.querySelector('button').click()")
    long = next(t for (t, level), (after, _) in zip(plain, plain[1:]) if level == "1" and after - t > 80000)
    assert page.js("it.view.t") == long, (page.js("it.view.t"), long)
    page.js("it.bar.time.value = '30ms'; it.bar.time.dispatchEvent(new Event('change'))")
    assert page.js("it.view.t") == 480000
    page.js("it.toggleRowList(); const s = it.list.element.querySelector('input'); s.value = 'q7'; s.dispatchEvent(new Event('input'))")
    assert page.js("[...document.querySelectorAll('.pins label:not([hidden])')].map(l => l.textContent.trim())") == ["sr1.Q7", "sr1.Q7S"]
    rows = page.js("it.view.rows.filter(r => r.kind === 'frames').length")
    page.js("it.addDecoder({ kind: 'spi', pins: ['sr1.DS', 'sr1.SHCP', 'sr1.STCP'] })")
    assert page.js("it.view.rows.filter(r => r.kind === 'frames').length") == rows + 1
    page.js("it.toggleRowList(); it.view.speed = 1 / 100; it.play(true)")
    soon(page, "it.view.playing && it.view.t > 480000")
    page.key(" ")
    assert not page.js("it.view.playing")
    page.js("it.second(100); it.range(1600, 160000)")
    soon(page, "location.hash.includes('b=100cy') && location.hash.includes('view=1600cy..160000cy')")
    page.open(write_page(box, "serial-hello"))
    sent = page.js("it.run.serial.times")
    page.js(f"it.go({sent[2]})")
    assert page.js("it.elements.before.textContent.length") == 3 and page.js("it.elements.after.textContent.length") == len(sent) - 3
    page.js(f"it.go({sent[2]} - 1)")
    assert page.js("it.elements.before.textContent.length") == 2
    assert page.js("it.elements.sentAs.hidden"), "one format alone fits"
    page.js("it.run.serial = { ...it.run.serial, formats: ['8N1'], others: ['8N2'] }; it.show(it.run)")
    choose = "(() => { const list = it.elements.sentAs; list.value = '%s'; list.dispatchEvent(new Event('change')); return [list.hidden, [...list.options].map(o => o.text), it.run.serial.formats, it.run.serial.others]; })()"
    assert page.js(choose % "8N2") == [False, ["read as 8N2", "read as 8N1"], ["8N2"], ["8N1"]]
    assert page.js(choose % "8N1")[2] == ["8N1"] and page.js("it.run.serial.times") == sent and page.js("it.view.decoders.filter(d => d.kind === 'uart').length") == 1
    silent(page)


def check_left(page, box):
    """What a run left out stands in the page, with a button that goes to its time; a cut and a window say what they hold."""
    folder = os.path.join(box, "left")
    os.mkdir(folder)
    make_leaving(folder)
    path = os.path.join(box, "left.html")
    with open(path, "w", encoding="utf-8") as file:
        file.write(page_of(seen_of(arguments([folder, "--us", "1000"]))))
    page.open(path)
    assert page.js("document.querySelectorAll('.left-out li').length") == 3 and not page.js("document.querySelector('.left-out').hidden")
    page.js("document.querySelectorAll('.left-out button')[1].click()")
    assert page.js("it.view.t") == page.js("it.run.notes[1].t") > 0
    page.open(write_page(box, "chip-inverter", ["--edges", "500"]))
    assert "more changes than a page holds" in page.js("document.querySelector('.left-out').textContent") and page.js("it.run.to < it.run.cycles")
    page.open(write_page(box, "shift-out", ["--from", "20000", "--to", "60000"]))
    assert page.js("[it.run.from, it.run.to, it.view.t]") == [320000, 960000, 320000]
    silent(page)


def check_screens(page, box):
    """Phone, dark, print, and no scripts at all."""
    path = write_page(box, "button")
    page.size(390, 800, touch=True)
    page.open(path)
    assert page.js("document.documentElement.scrollWidth") <= 390, page.js("document.documentElement.scrollWidth")
    page.size(1280, 800)
    page.dark(True)
    page.open(path)
    assert page.js("getComputedStyle(document.querySelector('.look')).backgroundColor") == "rgb(21, 24, 26)"
    page.dark(False)
    page.print(os.path.join(box, "page.pdf"))
    assert os.path.getsize(os.path.join(box, "page.pdf")) > 10000
    page.call("Emulation.setScriptExecutionDisabled", value=True)
    page.call("Page.navigate", url="file://" + path)
    time.sleep(0.5)
    document = page.call("DOM.getDocument", depth=-1)["root"]
    still = page.call("DOM.querySelectorAll", nodeId=document["nodeId"], selector="#still svg, #still pre")["nodeIds"]
    page.call("Emulation.setScriptExecutionDisabled", value=False)
    assert len(still) >= 2, still
    silent(page)


def check_hostile(page, box):
    """Modules that never come back, are none or have too much memory, in a page with its own policy: the page answers and draws all the
    while, the worker is ended, what cannot be shown is said, and the chips before and after them are shown."""
    if not shutil.which(os.environ.get("CLANG", "clang")):
        print("look, hostile modules in a page: skipped, there is no clang", file=sys.stderr)
        return
    modules = {name: test_played.examples_bytes(test_played.compiled(box, name, test_played.LOOPS, f"-DLAST={last}")) for name, last in (("module", 99), ("loops", 1))}
    page.open(write_page(box, "chip-display"))
    page.js(f"window.given = {json.dumps(modules)}; window.got = null; window.drawn = 0; window.longest = 0; 0")
    page.js("(async () => " + test_played.HOSTILE + ")().then(it => { window.got = it; }, error => { window.got = { fault: String(error) }; }); 0")
    page.js("{ let last = performance.now(); const step = now => { drawn++; longest = Math.max(longest, now - last); last = now; if (!got) requestAnimationFrame(step); }; requestAnimationFrame(step); } 0")
    end = time.monotonic() + 300
    while not page.js("got !== null"):
        assert time.monotonic() < end, "the page waits for a module"
        page.js("it.go(Math.round(Math.random() * it.run.to)); document.title")  # the page's own look goes on
        time.sleep(0.2)
    got, drawn, longest = page.js("[got, drawn, longest]")
    assert got.get("shown") == [2, 0, 0, 0, 2], got
    assert ["did not come back" in got["unplayed"][0], "too large" in got["unplayed"][2]] == [True, True], got
    assert drawn > 20 and longest < 10_000, f"the page drew {drawn} times, once after {longest:.0f} ms"
    silent(page)


def check_measuring():
    """measure.py has a line with its sizes and times."""
    line = measure.measured(1000)
    assert re.fullmatch(r"a wave of [\d,]+ bytes, 1,020 changes; read in .* of processor time into [\d,]+ bytes; page [\d,]+ bytes, opens in .* a frame in [\d.]+ ms", line), line


def everything():
    bad = 0
    try:
        page = Browser()
    except FileNotFoundError:
        print("look, pages in a browser: skipped, there is no Chromium", file=sys.stderr)
        return 0
    try:
        with tempfile.TemporaryDirectory() as box:
            steps = [(f"page of {name} opens", check_opens, (page, box, name)) for name in examples.names()]
            steps += [("keys", check_keys, (page, box)), ("mouse", check_mouse, (page, box)), ("tools", check_tools, (page, box)),
                      ("hostile modules", check_hostile, (page, box)), ("what was left out", check_left, (page, box)), ("screens", check_screens, (page, box)),
                      ("measuring", check_measuring, ())]
            for name, step, values in steps:
                try:
                    step(*values)
                    print(f"look, {name}: ok", flush=True)
                except (AssertionError, RuntimeError, TimeoutError, KeyError, TypeError) as error:
                    print(f"look, {name}: failed: {type(error).__name__} {error}", flush=True)
                    page.faults.clear()
                    bad = 1
    finally:
        page.close()
    return bad


if __name__ == "__main__":
    sys.exit(everything())
