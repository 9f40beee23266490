"""tests/report/run.py SILL [PICTURES]: the pages of sill report and sill diff --html in a browser, held to what the command tells in
other forms. Clicks and keys are the browser's own events. With a folder for pictures, one of each look is left there."""

import json
import os
import subprocess
import sys
import tempfile
from pathlib import Path
from xml.etree import ElementTree

import browser
import comparing
import looking
import night
import reading


class Command:
    """What the command tells of a folder in its other forms."""

    def __init__(self, sill):
        self.sill = sill

    def run(self, *words):
        return subprocess.run([self.sill, *map(str, words)], capture_output=True).stdout

    def lines(self, *words):
        return [json.loads(line) for line in self.run(*words).splitlines()]

    def checked(self, folder):
        """The files in order, each with its path as people read it, and the totals."""
        *files, last = self.lines("check", "--json", folder)
        cases = ElementTree.fromstring(self.run("check", "--format", "junit", folder)).iter("testcase")
        for file, case in zip(files, cases, strict=True):
            file["shown"] = case.get("name")
            file["faults"] = [found for found in file.get("findings", []) if found["kind"] not in ("not-sure", "name-order")]
        return files, last["totals"]


    @staticmethod
    def real(file):
        """A file's path as the system has it."""
        return bytes.fromhex(file["path_bytes"]) if "path_bytes" in file else file["path"]


class Tests:
    """Runs tests one by one; each that raises nothing has passed."""

    def __init__(self):
        self.passed, self.failed = 0, 0

    def run(self, test, *given):
        try:
            test(*given)
            self.passed += 1
        except Exception as error:  # a test may fail in any way; all are run
            self.failed += 1
            print(f"FAILED {test.__module__}.{test.__name__}: {type(error).__name__}: {str(error)[:1500]}")


def tests_of(module):
    return [thing for name, thing in vars(module).items() if name.startswith("test_")]


def main():
    command = Command(Path(sys.argv[1]).resolve())
    pictures = Path(sys.argv[2]).resolve() if len(sys.argv) > 2 else None
    tests, window = Tests(), browser.Browser(browser.find())
    try:
        with tempfile.TemporaryDirectory() as work:
            os.chdir(work)  # paths on the pages are short, and no machine's
            folder, page = Path("night"), Path("night.html").resolve()
            folder.mkdir()
            night.make(folder)
            command.run("report", "-o", page, folder)
            files, totals = command.checked(folder)
            for test in tests_of(reading):
                tests.run(test, reading.Page(window, page, files, totals, command))
            for test in tests_of(comparing):
                tests.run(test, window, command, Path(work))
            for test in tests_of(looking):
                tests.run(test, window, page)
            if pictures:
                looking.take_pictures(window, page, pictures)
                comparing.take_pictures(window, command, Path(work), pictures)
            os.chdir("/")
    finally:
        window.close()
    print(f"pages in a browser: {tests.passed} passed, {tests.failed} failed")
    return tests.failed > 0


if __name__ == "__main__":
    sys.exit(main())
