"""Runs of the built program, each compared with what is expected of it."""

import shlex
import sys
import traceback

import runs

DONE, DIFFERENT, WORDS, REFUSAL, DEVICE, MEMORY, UNCLEAN = range(7)


class Cases:
    """Prints a line for each case, and counts them. Of a test that failed it says what was asked, what came, and how it is run
    alone. Where tests are named, they alone run."""

    def __init__(self, program, named=()):
        self.program = program
        self.named = named
        self.passed = 0
        self.failed = 0

    def run(self, words=(), log=b"", **options):
        """How the program ends with these words over a log on standard input."""
        return runs.run(self.program, words, log, **options)

    def report(self, name, wrong):
        """A case passed where nothing is wrong."""
        if wrong:
            self.failed += 1
            print("\n  asked: ".join([f"FAILED {name}: {'; '.join(wrong)}", *map(runs.spelled, runs.asked_in_vain())]), flush=True)
        else:
            self.passed += 1
            print(f"ok {name}", flush=True)
        runs.forget()

    def case(self, name, found, status, output=b"", error=b""):
        """Compares a run with its status and texts. A text that is None may be any."""
        wrong = runs.differences("status", found.status, status)
        for kind, came, want in [("output", found.output, output), ("error output", found.error, error)]:
            wrong += [] if want is None else runs.differences(kind, came or b"", want)
        self.report(name, wrong)

    def chosen(self, tests):
        """The tests that are named, or all."""
        names = [test.__name__ for test in tests]
        unknown = {*self.named} - {*names}
        if unknown:
            sys.exit(f"there is no test {', '.join(sorted(unknown))}; the tests are {', '.join(names)}")
        return [test for test in tests if test.__name__ in (self.named or names)]

    def each(self, tests, *given):
        """Has each test report its cases. One that breaks off has failed, and the others go on."""
        for test in self.chosen(tests):
            before = self.failed
            try:
                test(self, *given)
            except Exception:
                self.report(f"{test.__name__} comes to its end", [traceback.format_exc()])
            if self.failed > before:
                self.tell_alone(test.__name__)

    def tell_alone(self, name):
        """Says how this test runs alone, where it is one of several."""
        if not self.named:
            print(f"This test alone: {shlex.join(['python3', *sys.argv, name])}", flush=True)

    def end(self):
        print(f"{self.passed} passed, {self.failed} failed")
        sys.exit(1 if self.failed else 0)
