"""Runs the cases of a folder, for tools/check-serve, tools/check-scripts and page/check.

Each file of the folder has the cases of one subject: methods `test_WHAT` of classes of `Case` whose
docstrings say the promise. Python's unittest finds, selects and reports them.
"""

import argparse
import os
import shutil
import signal
import subprocess
import sys
import tempfile
import time
import unittest

from crates import TOP, read_words

TOOLS = f"{TOP}/tools"
PROGRAM = f"{TOP}/crates/popbox/out/popbox"


class Case(unittest.TestCase):
    """A case, with the program and with an empty folder of its own."""

    program, maxDiff = PROGRAM, None

    def setUp(self):
        self.folder = os.path.realpath(self.enterContext(tempfile.TemporaryDirectory()))

    def run(self, result=None):
        try:
            return super().run(result)
        finally:
            # Also if the run is broken off.
            self.doCleanups()


def needs(*commands):
    """Skips the case that calls this, unless these commands are there."""
    for it in commands:
        if not shutil.which(it):
            raise unittest.SkipTest(f"no {it}")


def compile_preload(name, folder):
    """Compiles tools/preload/NAME.c, in this folder, for the loader; gives the library's path."""
    needs("cc")
    library = f"{folder}/{name}.so"
    words = ["cc", "-O2", "-shared", "-fPIC", "-o", library, f"{TOOLS}/preload/{name}.c"]
    subprocess.run(words, check=True)
    return library


class Result(unittest.TextTestResult):
    """Prints a line for each case when it ends: how it went, and how long it took."""

    def startTest(self, test):
        super().startTest(test)
        self.begun, self.told = time.monotonic(), "ok"

    def addSkip(self, test, reason):
        super().addSkip(test, reason)
        self.told = f"skipped: {reason}"

    def addFailure(self, test, error):
        super().addFailure(test, error)
        self.told = f"FAILED: {error[1]}"

    def addError(self, test, error):
        super().addError(test, error)
        self.told = f"FAILED: {error[0].__name__}: {error[1]}"

    def addSubTest(self, test, subtest, error):
        super().addSubTest(test, subtest, error)
        if error:
            self.told = f"FAILED: {subtest}: {error[1]}"

    def stopTest(self, test):
        super().stopTest(test)
        print(f"{test.id()}: {self.told}, {time.monotonic() - self.begun:.1f} s", flush=True)


def find_program(words):
    """The path of the program that the first of these words names, or else of tools/build's."""
    program = os.path.abspath(words[0]) if words else PROGRAM
    if not os.access(program, os.X_OK):
        sys.exit(f"{program} isn't there: tools/build builds it, tools/run-unproved another")
    return program


def tell(tool, differs, counts):
    """Prints what differs, and counts, each after a tool's name; and exits."""
    for it in differs:
        print(f"{tool}: {it}", file=sys.stderr)
    print(f"{tool}: {counts}")
    sys.exit(bool(differs))


def read_line(text, options):
    """Gives Case what the command line says, and gives the words after each -k."""
    read_words(text)
    line = argparse.ArgumentParser(usage=text.partition(":")[0])
    line.add_argument("-k", action="append", default=[])
    line.add_argument("program", nargs="?", type=os.path.abspath, default=PROGRAM)
    for name, value in options.items():
        action = "store_true" if value is False else "store"
        line.add_argument(f"--{name}", action=action, default=value)
    said = vars(line.parse_args())
    words = said.pop("k")
    for name, value in said.items():
        setattr(Case, name, value)
    return words


def main(text, folder, **options):
    """Runs those cases of a folder beside this file that the command line asks for, and exits.
    `text` is the tool's help. Each of the options, with its default, is an attribute of Case."""
    words = read_line(text, options)
    find_program([Case.program])
    # What a case began is ended with it.
    signal.signal(signal.SIGTERM, signal.default_int_handler)
    loader = unittest.TestLoader()
    loader.testNamePatterns = [f"*{word}*" for word in words] or None
    found = loader.discover(f"{TOOLS}/{folder}", "*.py")
    runner = unittest.TextTestRunner(sys.stdout, verbosity=0, resultclass=Result)
    result = runner.run(found)
    if not result.testsRun:
        print("no case has such a name")
        sys.exit(2)
    sys.exit(not result.wasSuccessful())
