"""The examples: those in the docstrings, and those in README.md with what they print."""
import contextlib
import doctest
import io
import re
import unittest

from common import PROJECT

import yeldmur
from yeldmur import parts, probes, refusal, search, sheet, weights


def load_tests(loader, tests, pattern):
    for module in (yeldmur, parts, probes, refusal, search, sheet, weights):
        tests.addTests(doctest.DocTestSuite(module))
    return tests


class Readme(unittest.TestCase):
    def test_the_examples(self):
        text = (PROJECT / "README.md").read_text(encoding="utf-8")
        examples = re.findall(r"```python\n(.*?)```\n\nIt prints\n\n```text\n(.*?)```", text, re.DOTALL)
        self.assertEqual(len(examples), text.count("```python\n"))
        for code, printed in examples:
            said = io.StringIO()
            with contextlib.redirect_stdout(said):
                exec(compile(code, "README.md", "exec"), {})
            self.assertEqual(said.getvalue(), printed)


if __name__ == "__main__":
    unittest.main()
