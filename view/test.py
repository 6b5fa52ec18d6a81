#!/usr/bin/env python3
"""Looks at the views as a person would, and compares what they show with what the program says.

    view/test.py [--program PATH] [--only TEXT]

Prints a line for each thing that is wrong, and last 'N passed, M failed'. Pages need Chromium, the stage needs tmux; where one isn't
installed, a line says what was left out.
"""
import argparse
import os
import shutil
import sys
import tempfile
from typing import Callable

import test_guide
import test_page
import test_plot
import test_rehearsal
import test_stage
from browser import chromium
from shows import default_program


def chosen(report: list[str]) -> list[tuple[str, object]]:
    """The cases whose packages are installed; what is left out is said."""
    cases = test_rehearsal.cases() + test_plot.cases() + test_stage.plain_cases() + test_guide.cases()
    for name, found, more, package in (("pages in a browser", chromium(), lambda: test_page.cases(report), "chromium"), ("the stage in a terminal", shutil.which("tmux"), test_stage.cases, "tmux")):
        if found:
            cases += more()
        else:
            print(f"left out: {name}; apt-get install {package}")
    return cases


def looked_at(case: Callable[[str, str], list[str]], program: str, folder: str) -> list[str]:
    """What is wrong in a case; one that breaks off is wrong too."""
    try:
        return case(program, folder)
    except Exception as error:  # pylint: disable=broad-except
        return [f"it broke off: {type(error).__name__}: {error}"]


def main() -> int:
    """Runs the cases; 1 where one fails."""
    parser = argparse.ArgumentParser()
    parser.add_argument("--program")
    parser.add_argument("--only", default="")
    given = parser.parse_args()
    program, report = os.path.abspath(given.program or default_program()), []
    passed = failed = 0
    with tempfile.TemporaryDirectory(prefix="view-test-") as folder:
        for name, case in chosen(report):
            if given.only not in name:
                continue
            wrong = looked_at(case, program, folder)
            passed, failed = passed + (not wrong), failed + bool(wrong)
            if wrong:
                print(f"FAILED {name}: {'; '.join(wrong[:6])}", flush=True)
    print("".join(line + "\n" for line in report) + f"{passed} passed, {failed} failed")
    return 1 if failed or not passed else 0


if __name__ == "__main__":
    sys.exit(main())
