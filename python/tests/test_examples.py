"""The examples in the docstrings of the package, and those of three pages of docs."""

import doctest
import re
import sys
import unittest
from pathlib import Path
from typing import Any, List

import edfvd
from edfvd import _calls, _commands, _errors, _files, _many, _monitor, _runs, _scheduler, _sensitivity, _trace, laboratory

DOCS = Path(__file__).resolve().parents[2] / "docs"
PAGES = [DOCS / "C-AND-PYTHON.md", DOCS / "LABORATORY.md", DOCS / "SENSITIVITY.md"]


def is_for_this_python(text: str) -> bool:
    """Whether the examples run here: reading a task file needs the tomllib of Python 3.11."""
    return sys.version_info >= (3, 11) or ">>> " not in text or "read_tasks(" not in text


class Finder(doctest.DocTestFinder):
    """Finds the examples that run with this version of Python."""

    def find(self, *given: Any, **named: Any) -> List[doctest.DocTest]:
        return [test for test in super().find(*given, **named) if is_for_this_python(test.docstring or "")]


def load_tests(loader: unittest.TestLoader, tests: unittest.TestSuite, pattern: object) -> unittest.TestSuite:
    """Adds a test for each docstring with an example, and one for each page."""
    for module in (edfvd, _calls, _commands, _errors, _files, _many, _monitor, _runs, _scheduler, _sensitivity, _trace, laboratory):
        tests.addTests(doctest.DocTestSuite(module, test_finder=Finder()))
    for page in filter(Path.exists, PAGES):
        text = re.sub(r"^```.*$", "", page.read_text(), flags=re.M)
        if not is_for_this_python(text):
            continue
        example = doctest.DocTestParser().get_doctest(text, {}, page.name, str(page), 0)
        tests.addTest(doctest.DocTestCase(example))
    return tests


if __name__ == "__main__":
    unittest.main()
