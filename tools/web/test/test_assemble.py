#!/usr/bin/env python3
"""assemble.py: what it reads of documents and examples, that its page allows only what is in it, and the program for Node."""
import base64
import hashlib
import os
import re
import sys
import tempfile
import unittest
import zlib

HERE = os.path.dirname(os.path.abspath(__file__))
sys.dont_write_bytecode = True
sys.path.insert(0, os.path.join(HERE, ".."))
import assemble


def page(box):
    with open(os.path.join(box, "mudflatjar32.wasm"), "wb") as file:
        file.write(b"\0asm\1\0\0\0")
    return assemble.page_of(box)


class Assemble(unittest.TestCase):
    def test_every_number_of_the_documents_has_its_rule(self):
        rules = assemble.refusals()
        for number, name in (("10", "FileTooLong"), ("42", "TypeUnknown"), ("61", "WasmCut"), ("83", "ScriptPart"), ("95", "TwinDiffers")):
            self.assertEqual(rules[number]["name"], name)
        for number, rule in rules.items():
            self.assertTrue(rule["when"] and rule["remedy"], number)
            self.assertNotIn("`", rule["when"] + rule["remedy"])

    def test_each_example_that_is_a_project_is_in_it_with_its_run_time(self):
        found = {it["name"]: it for it in assemble.examples()}
        self.assertEqual(found["button"]["us"], 60000)
        self.assertIn("script.txt", [path for path, _ in found["button"]["files"]])
        self.assertNotIn("sort", found)
        for name, example in found.items():
            self.assertFalse([path for path, _ in example["files"] if "expected" in path], name)
            self.assertTrue(any(path.endswith(".hex") for path, _ in example["files"]), name)

    def test_the_page_is_the_same_twice_and_asks_for_nothing(self):
        with tempfile.TemporaryDirectory() as box:
            text = page(box)
            self.assertEqual(page(box), text)
        self.assertEqual(re.findall(r"@@(?:POLICY|STYLE|SCRIPT|WORKER|TEMPLATE|WIDE|NARROW)@@", text), [])
        for tag in ("<link", "<img", "<iframe", "src=", "@import", "url("):
            self.assertNotIn(tag, text.split('<script type="text/plain" id="data">')[0])

    def test_the_policy_names_the_script_and_the_style(self):
        with tempfile.TemporaryDirectory() as box:
            text = page(box)
        policy = re.search(r'Content-Security-Policy" content="([^"]*)"', text)[1]
        self.assertIn("default-src 'none'", policy)
        self.assertNotIn("unsafe-inline", policy)
        for element, pattern in (("script-src", r"<script>(.*?)</script>"), ("style-src", r"<style>(.*?)</style>")):
            found = re.findall(pattern, text, re.S)
            self.assertEqual(len(found), 1)
            digest = base64.b64encode(hashlib.sha256(found[0].encode()).digest()).decode()
            self.assertRegex(policy, rf"{element} 'sha256-{re.escape(digest)}'")

    def test_the_program_for_node_holds_all_that_it_needs(self):
        with tempfile.TemporaryDirectory() as box:
            page(box)
            text = assemble.program_of(box)
        self.assertNotIn("call.mjs", text)
        module = re.search(r"^const CARRIED = '(.+)';$", text, re.M)[1]
        self.assertEqual(zlib.decompress(base64.b64decode(module)), b"\0asm\1\0\0\0")

    def test_without_a_module_there_is_no_page(self):
        with tempfile.TemporaryDirectory() as box, self.assertRaisesRegex(assemble.Fault, "no module"):
            assemble.page_of(box)


if __name__ == "__main__":
    unittest.main()
