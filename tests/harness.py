"""Tests that are counted, as the programs of tests/ in Python do it."""
import os


class Count:
    """How many tests passed and failed."""

    passed = failed = 0

    def note(self, name, is_well, why=""):
        """Counts a test, and prints the end of `why` if it failed."""
        self.passed, self.failed = self.passed + bool(is_well), self.failed + (not is_well)
        if not is_well:
            print(f"FAILED: {name}: {str(why)[-1500:]}", flush=True)

    def leave_out(self, package, what):
        """Says that something is left out, which in CI is a failure."""
        print(f"left out, since there is no {package}: {what}")
        self.failed += os.environ.get("CI") == "true"

    def end(self, what):
        """Prints the last line, which counts the tests of this. Returns the status of the program."""
        print(f"{self.passed + self.failed} tests {what}, {self.failed} failed")
        return 1 if self.failed else 0
