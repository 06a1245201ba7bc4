# SPDX-License-Identifier: MIT
"""What the checks in Python share: they count what they try, and run the programs of the crates."""
import os
import subprocess
import sys
from pathlib import Path

TOP = str(Path(__file__).resolve().parents[2])
passed = failed = 0


def check(name, holds, why=""):
    """Counts what was tried; without success it prints why."""
    global passed, failed
    passed, failed = passed + bool(holds), failed + (not holds)
    if not holds:
        print(f"FAILED: {name}: {why}")


def ended():
    """Prints the counts, as the last line; returns the status."""
    print(f"{passed} passed, {failed} failed")
    return failed > 0


def builds_of(program):
    """The builds of a program, at least one: what its variable names, or those that scripts/built leaves."""
    given = os.environ.get(program.upper())
    if given:
        return [os.path.abspath(given)]
    left = subprocess.run([f"{TOP}/scripts/built", program], stdout=subprocess.PIPE, text=True)
    if left.returncode:
        sys.exit(f"{program} isn't built\n0 passed, 1 failed")
    return left.stdout.splitlines()


def built(program):
    return builds_of(program)[0]


def run(program, *arguments, folder, seconds):
    """The status, and the texts that a program prints, in a folder and without input."""
    ran = subprocess.run([program, *arguments], cwd=folder, stdin=subprocess.DEVNULL, capture_output=True,
                         timeout=seconds)
    return ran.returncode, ran.stdout.decode(errors="replace"), ran.stderr.decode(errors="replace")
