"""The tests in Python that pages show are run as they are written, beside the thermostat."""
import os
import re
import shutil
import subprocess
import tempfile
import unittest

import common
from common import EXAMPLES, PYTEST, TOP, needs_arduino, needs_pytest, needs_serve


@needs_serve
@needs_arduino
@needs_pytest
class Shown(unittest.TestCase):
    def passes(self, page):
        with open(os.path.join(TOP, "docs", page), encoding="utf-8") as file:
            blocks = re.findall(r"(?ms)^```python\n(.*?)^```$", file.read())
        self.assertEqual(len(blocks), 1, page)
        with tempfile.TemporaryDirectory() as folder:
            shutil.copytree(
                os.path.join(EXAMPLES, "thermostat"),
                os.path.join(folder, "thermostat"),
                ignore=shutil.ignore_patterns("test_*"),
            )
            with open(os.path.join(folder, "test_it.py"), "w", encoding="utf-8") as file:
                file.write(blocks[0])
            ran = subprocess.run(
                [PYTEST, "-q", "-p", "no:cacheprovider"],
                cwd=folder,
                env=common.environment(),
                stdout=subprocess.PIPE,
                stderr=subprocess.STDOUT,
                text=True,
                check=False,
            )
        self.assertIn("\n1 passed", ran.stdout)

    def test_the_first_test_of_the_page_of_the_package(self):
        self.passes("PYTHON.md")

    def test_the_first_test_of_the_page_of_tests(self):
        self.passes("TESTING.md")


if __name__ == "__main__":
    unittest.main()
