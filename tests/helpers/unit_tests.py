"""Tests by unittest. Of one that failed it is said what was asked, what came, and how it is run alone."""

import shlex
import sys
import unittest

import runs


class Result(unittest.TextTestResult):
    def startTest(self, test):
        runs.asked.clear()
        super().startTest(test)

    def addFailure(self, test, error):
        super().addFailure(test, error)
        self.failures.append(with_more(*self.failures.pop()))

    def addError(self, test, error):
        super().addError(test, error)
        self.errors.append(with_more(*self.errors.pop()))

    def addSubTest(self, test, part, error):
        super().addSubTest(test, part, error)
        if error:
            kind = self.failures if issubclass(error[0], test.failureException) else self.errors
            kind.append(with_more(*kind.pop()))


def with_more(test, told):
    """What is told of a test that failed, and more. Behind the name of a test stands that of its part."""
    name = test.id().partition(".")[2].split(" ")[0]
    asked = "".join(f"asked: {runs.spelled(one)}\n" for one in runs.asked)
    return test, f"{told}{asked}This test alone: {shlex.join(['python3', *sys.argv, name])}\n"


def run_tests(named):
    """Runs the tests of the script, or those that are named, and ends."""
    runner = unittest.TextTestRunner(resultclass=Result)
    ended = unittest.main(argv=[sys.argv[0], *named], exit=False, testRunner=runner).result
    for test, reason in ended.skipped:
        print(f"skipped {test.id().rpartition('.')[2]}: {reason}", flush=True)
    failed = len(ended.failures) + len(ended.errors)
    print(f"{ended.testsRun - failed - len(ended.skipped)} passed, {failed} failed")
    sys.exit(1 if failed else 0)
