#!/usr/bin/python3
"""all.py [--program PATH] [--only TEXT]: every test of the bridges, inside the name space that test.sh makes.

Prints a line for each test that failed, and last 'N passed, M failed'.
"""
import argparse
import os
import sys
import traceback

import rig
import ola_tests
import seat_tests


def main() -> int:
    """Runs the tests."""
    parser = argparse.ArgumentParser()
    parser.add_argument("--program", default=os.path.join(rig.TOP, "crates/cuedesk/out/cuedesk"))
    parser.add_argument("--only", default="")
    given = parser.parse_args()
    if not os.path.exists(given.program):
        parser.error(f"there is no {given.program}: CUEDESK_BUILD=1 ./cuedesk builds it")
    rig.made_space()
    passed = failed = 0
    lacking = seat_tests.lacking()
    if lacking:
        print(f"bridges: the seat wasn't tested: {lacking}")
    for test in ola_tests.TESTS + ([] if lacking else seat_tests.TESTS):
        name = test.__name__.replace("_", " ")
        if given.only not in name:
            continue
        try:
            wrong = test(os.path.abspath(given.program))
        except Exception:
            wrong = traceback.format_exc().splitlines()[-3:]
        passed, failed = passed + (not wrong), failed + bool(wrong)
        if wrong:
            print(f"FAILED {name}: {'; '.join(wrong)}", flush=True)
    print(f"{passed} passed, {failed} failed")
    return 1 if failed or not passed else 0


if __name__ == "__main__":
    sys.exit(main())
