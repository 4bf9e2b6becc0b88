"""docs/python.md and docs/tasks.md: what their examples of Python show is what they answer."""

import doctest
import os
import re
import shutil
import tempfile
import unittest
from pathlib import Path

PAGE = Path(__file__).resolve().parents[2] / "docs" / "python.md"
TASKS = PAGE.with_name("tasks.md")
BLOCK = re.compile(r"^```python\n(.*?)^```$", re.M | re.S)


class Page(unittest.TestCase):
    def test_its_examples(self):
        self.check_examples(PAGE, 40)

    def test_examples_of_tasks(self):
        self.check_examples(TASKS, 2)

    def check_examples(self, page, least):
        folder, was = tempfile.mkdtemp(), os.getcwd()
        self.addCleanup(shutil.rmtree, folder)
        self.addCleanup(os.chdir, was)
        os.chdir(folder)
        text = page.read_text()
        parser, names, told = doctest.DocTestParser(), {}, []
        runner = doctest.DocTestRunner(verbose=False)
        for block in BLOCK.finditer(text):
            line = text.count("\n", 0, block.start())
            test = parser.get_doctest(block[1], names, page.name, str(page), line)
            self.assertTrue(test.examples, f"line {line}: no example")
            runner.run(test, out=told.append, clear_globs=False)
            names = test.globs
        self.assertEqual("".join(told), "")
        self.assertGreaterEqual(runner.tries, least)

    def test_each_task_has_its_script(self):
        tasks = re.split(r"^\*\*\d+\. ", PAGE.read_text().partition("\n## What is given")[0], flags=re.M)[1:]
        self.assertEqual(len(tasks), 10)
        for task in tasks:
            self.assertEqual(re.findall(r"^```(\w+)$", task, re.M), ["python", "session"])
