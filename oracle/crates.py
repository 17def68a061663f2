"""The crates in figures (bin/measure sizes, bin/measure check): lines of each kind; and with `check FOLDER` a check of each, one after the other, in a copy of
the crates in FOLDER: the functions and axioms that it counts, and the CPU seconds and memory that it took. `rt check` begins with what checks of the same
crate left elsewhere on this machine; where there is nothing of that kind, it is a proof from nothing."""
import os
import re
import shutil
import subprocess
import sys
from pathlib import Path

CRATES = re.findall(r"^(\w+)(?: staticlib)?:", Path("crates.txt").read_text(), re.M)
LINES = ["Code", "Specs", "Proofs", "Laws"]


def lines(files):
    """How many lines of the files are neither blank nor comment."""
    return sum(not re.match(r"\s*(//|--|$)", line) for file in files for line in file.read_text().splitlines())


def sizes(crate):
    """Lines of code, of specs, of the proofs of single functions (a folder each), and of the laws that these share."""
    folder = Path("crates", crate)
    files = set(folder.glob("proofs/**/*.antt"))
    proofs = {file for file in files if file.stem in ("Answers", "Invariants")}
    laws = files - proofs
    return [lines(files) for files in (folder.glob("src/**/*.rt"), folder.glob("specs/**/*.antt"), proofs, laws)]


def checked(crate, folder):
    """Functions proved and axioms stood on, by the verdict; CPU seconds, and the memory of the largest process in MiB."""
    with open(folder / "said", "wb") as said:
        running = subprocess.Popen(["rt", "check"], cwd=folder / "crates" / crate, stdin=subprocess.DEVNULL, stdout=said, stderr=said)
        _, status, used = os.wait4(running.pid, 0)
        running.returncode = os.waitstatus_to_exitcode(status)
    log = (folder / "said").read_text()
    verdict = re.findall(r"^logic=proved functions=(\d+)(?: axioms=(\d+))?", log, re.M)
    if running.returncode != 0 or not verdict:
        sys.exit(f"{log}crates.py: {crate} was not proved")
    verdict = verdict[-1]  # that of the crate stands last, behind those of the libraries below
    return [int(verdict[0]), int(verdict[1] or 0), round(used.ru_utime + used.ru_stime), round(used.ru_maxrss / 1024)]


def row(cells):
    print("|", " | ".join(map(str, cells)), "|", flush=True)


def table(heads, figures, last):
    """A row for each crate, then one for all of them: `last` says how each column comes together."""
    row(["Crate"] + heads)
    print("|" + "---|" * (len(heads) + 1))
    rows = []
    for crate in CRATES:
        rows.append(figures(crate))
        row([crate] + rows[-1])
    row(["all"] + [join(column) for join, column in zip(last, zip(*rows))])


def main(words):
    if words[0] == "sizes":
        return table(LINES, sizes, [sum] * 4)
    folder = Path(words[1])
    shutil.copytree("crates", folder / "crates", ignore=shutil.ignore_patterns("out"))
    (folder / ".git").mkdir()
    shutil.copy("crates.txt", folder)
    table(LINES + ["Functions", "Axioms", "CPU s", "Peak MiB"], lambda crate: sizes(crate) + checked(crate, folder), [sum] * 5 + [max, sum, max])


main(sys.argv[1:])
