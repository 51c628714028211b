"""Builds the library for C from crates/survey_c, and puts it into a folder as libsurvey.a, the name under which C programs link it.

    library.py [--gate] FOLDER

`rt lib` does this, and first proves each library below that no check has kept in this checkout. `rt ci` proves and builds these too, but leaves them without
the mark by which `rt lib` knows them. So with --gate, right after `rt ci` in the same checkout, where all of them stand as it left them, the kit's compiler is
called over them, as `rt ci` calls it for a program: it proves survey_c and compiles. Where that fails, or one is missing or marked, and always without
--gate, `rt lib` is called.
"""

import os
import re
import shutil
import subprocess
import sys

NAME = "survey_c"
ROOT = os.path.dirname(os.path.dirname(os.path.abspath(__file__)))
CRATE = os.path.join(ROOT, "crates", NAME)


def listed():
    """What each crate of crates.txt depends on."""
    with open(os.path.join(ROOT, "crates.txt"), encoding="utf-8") as lines:
        rows = [line.partition("#")[0].partition(":") for line in lines]
    return {name.split()[0]: names.split() for name, colon, names in rows if colon}


def below(crates, name):
    """The crates of the repository that this one stands on, each after those that it stands on itself. Libraries of the kit are found where the kit has them."""
    found = []
    for each in filter(crates.__contains__, crates[name]):
        found += [it for it in [*below(crates, each), each] if it not in found]
    return found


def over_the_gate(archive):
    """Builds the archive over what `rt ci` left, and says whether it could."""
    crates = listed()
    libraries = below(crates, NAME)
    rlibs = {it: os.path.join(ROOT, "crates", it, "out", "rlib", it + ".rlib") for it in libraries}
    if not all(os.path.isfile(os.path.join(it, "format")) for it in rlibs.values()):
        return False
    if any(os.path.exists(os.path.join(os.path.dirname(it), "stamp")) for it in rlibs.values()):
        return False
    kit = os.path.dirname(subprocess.run(["rt", "doc"], check=True, capture_output=True, text=True).stdout.strip())
    words = [f"{kit}/bin/rattle", "build", "--crate-name", NAME, "src/lib.rt"]
    words += ["--extern", f"std={kit}/rlibs/std.rlib", "-L", f"dependency={kit}/rlibs"]
    for it in crates[NAME]:
        words += ["--extern", f"{it}={rlibs[it]}"]
    for it in libraries:
        words += ["-L", f"dependency={os.path.dirname(rlibs[it])}"]
    words += ["--antt-project", f"{kit}/rattle/logic/antt-project.json", "--logic-built", f"{kit}/logic_built", "--jobs", "2"]
    words += ["--links", NAME + "=", "--crate-type", "staticlib", "--toolchain", f"{kit}/toolchain", "--backend", "llvm", "-o", archive]
    os.makedirs(os.path.dirname(archive), exist_ok=True)
    ran = subprocess.run(words, cwd=CRATE, stdin=subprocess.DEVNULL, stdout=subprocess.PIPE, stderr=subprocess.STDOUT, text=True)
    said = [line for line in ran.stdout.splitlines() if line.startswith("logic=")]
    print(*(said or ran.stdout.splitlines()[-5:]), sep="\n")
    return ran.returncode == 0 and bool(said) and bool(re.match("logic=proved ", said[-1])) and os.path.isfile(archive)


def main():
    words = sys.argv[1:]
    of_gate = "--gate" in words[:1]
    if len(words) != 1 + of_gate:
        sys.exit(__doc__)
    folder = words[-1]
    archive = os.path.join(CRATE, "out", f"lib{NAME}.a")
    if os.path.exists(archive):
        os.remove(archive)
    if not (of_gate and over_the_gate(archive)):
        ran = subprocess.run(["rt", "lib"], cwd=CRATE, stdin=subprocess.DEVNULL, stdout=subprocess.PIPE, stderr=subprocess.STDOUT, text=True)
        if ran.returncode or not os.path.isfile(archive):
            print(ran.stdout, end="")
            sys.exit("library: crates/survey_c did not build")
        print(ran.stdout.splitlines()[-1])
    os.makedirs(folder, exist_ok=True)
    shutil.copyfile(archive, os.path.join(folder, "libsurvey.a"))


if __name__ == "__main__":
    main()
