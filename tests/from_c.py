"""What the tests from C with wrong calls share: tests/NAME.c, which counts its checks, and the calls of tests/wrong_NAME.c.

NAME.c runs with the library. That it can fail: it runs with the calls of wrong_NAME.c in place of the library's, with the right
ones and with each that has one fault; it must hold with the right ones and with no other. Each case is counted; a case that
fails is named.
"""

import os
import re
import subprocess
import sys
import tempfile

ROOT = os.path.dirname(os.path.dirname(os.path.abspath(__file__)))
CC = ["cc", "-std=c11", "-O1", "-Wall", "-Wextra", "-Werror", "-I", os.path.join(ROOT, "include")]


def source(name):
    return os.path.join(ROOT, "tests", name + ".c")


def wrong_calls(name):
    """(the calls that wrong_NAME.c defines, the names of its faults, the first of which is none)"""
    with open(source("wrong_" + name), encoding="utf-8") as file:
        text = re.sub(r"/\*.*?\*/", "", file.read(), flags=re.DOTALL)
    listed = re.search(r"enum fault \{(.*?)\}", text, flags=re.DOTALL).group(1)
    return re.findall(r"^\w+ tried_(\w+)\(", text, flags=re.MULTILINE), re.findall(r"\w+", listed)[:-1]


def ran(name, program):
    """What a run of NAME.c says: its lines, and how many of its checks held and failed, or None where it says none."""
    done = subprocess.run([program], capture_output=True, text=True, check=False)
    counted = re.search(r"^%s: (\d+) passed, (\d+) failed$" % name, done.stdout, flags=re.MULTILINE)
    numbers = (int(counted.group(1)), int(counted.group(2))) if counted else None
    return done.stdout, numbers if numbers and (done.returncode == 0) == (numbers[1] == 0) else None


def with_library(name, library, folder):
    program = os.path.join(folder, name)
    subprocess.run(CC + [source(name), "-L", library, "-lsurvey", "-o", program], check=True)
    return ran(name, program)


def compiled(name, calls, folder):
    """NAME.c, compiled to call what wrong_NAME.c defines."""
    target = os.path.join(folder, name + ".o")
    renamed = ["-Dring_%s=tried_%s" % (call, call) for call in calls]
    subprocess.run(CC + renamed + ["-c", source(name), "-o", target], check=True)
    return target


def with_fault(name, fault, check, library, folder):
    program = os.path.join(folder, fault)
    build = CC + ["-DFAULT=" + fault, source("wrong_" + name), check, "-L", library, "-lsurvey", "-lm", "-o", program]
    subprocess.run(build, check=True)
    return ran(name, program)


def tried(name, library, folder):
    """How many cases held, and how many failed."""
    said, numbers = with_library(name, library, folder)
    print("".join(line + "\n" for line in said.splitlines() if line.startswith("FAILED: ")), end="")
    held, failed = numbers or (0, 1)
    calls, faults = wrong_calls(name)
    check = compiled(name, calls, folder)
    for fault in faults:
        said, numbers = with_fault(name, fault, check, library, folder)
        right = numbers is not None and (numbers[1] == 0) == (fault == "RIGHT")
        held, failed = held + right, failed + (not right)
        if not right:
            print("FAILED: with %s %s.c says\n%s" % (fault, name, said))
    return held, failed


def main(name):
    if len(sys.argv) != 2:
        sys.exit("usage: %s.py LIBDIR" % name)
    with tempfile.TemporaryDirectory() as folder:
        held, failed = tried(name, sys.argv[1], folder)
    print("%s: %d passed, %d failed" % (name, held, failed))
    return 1 if failed or not held else 0
