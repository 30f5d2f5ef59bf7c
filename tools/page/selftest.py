"""The tests of tools/show: its rules, pages of the program's runs, and pages in a browser."""
import sys
import unittest
from pathlib import Path

import runs
from page import browser, test_access, test_browser, test_rules, test_runs


def selftest(program):
    """Runs all tests, those in a browser where there is one. Answers the status."""
    test_runs.PROGRAM = Path(runs.program_at(program))
    modules = [test_rules, test_runs]
    if browser.program():
        modules += [test_browser, test_access]
    else:
        print("tools/show: chromium is not here, so no page was tried in a browser")
    tests = unittest.TestSuite(map(unittest.defaultTestLoader.loadTestsFromModule, modules))
    ended = unittest.TextTestRunner(stream=sys.stdout, verbosity=2).run(tests)
    return 0 if ended.wasSuccessful() else 1
