"""Two programs on one trace (bin/measure program): `program.py TRACE SCRIPT OURS THEIRS` checks that they write the same bytes and prints the
instructions, the time and the memory that each takes. SCRIPT is the command that people start OURS with."""
import re
import subprocess
import sys
import tempfile
import time
from pathlib import Path

TURNS = 50


def run(words, trace):
    """What a command writes to standard output when it reads the trace."""
    with open(trace, "rb") as text:
        return subprocess.run(words, stdin=text, stdout=subprocess.PIPE, stderr=subprocess.DEVNULL, check=True).stdout


def instructions(program, trace, *words):
    """Counted by callgrind: in the whole process, or where the words say."""
    with tempfile.NamedTemporaryFile() as counts:
        run(["valgrind", "--tool=callgrind", f"--callgrind-out-file={counts.name}", *words, program], trace)
        return int(re.search(r"^totals: (\d+)", Path(counts.name).read_text(), re.M)[1])


def milliseconds(programs, trace):
    """Wall time of each from before its process is made until after its end: the best of some turns, taken in turn."""
    best = [float("inf")] * len(programs)
    for _ in range(TURNS):
        for place, program in enumerate(programs):
            began = time.perf_counter()
            run([program], trace)
            best[place] = min(best[place], time.perf_counter() - began)
    return [seconds * 1000 for seconds in best]


def peak(program, trace):
    """The most memory that was resident, in KiB: what the kernel says as the process ends, stopped there by gdb."""
    steps = ["catch syscall exit_group", f"run < '{trace}' > /dev/null", "info proc status", "kill"]
    said = run(["gdb", "-q", "-batch", *(word for step in steps for word in ("-ex", step)), program], "/dev/null")
    return int(re.search(rb"^VmHWM:\s+(\d+) kB", said, re.M)[1])


def main(trace, script, ours, theirs):
    answer = run([ours], trace)
    if not answer or answer != run([theirs], trace) or answer != run([script], trace):
        sys.exit("program.py: the answers differ")
    messages, alerts = (len(re.findall(key, answer, re.M)) for key in (rb"^n=", rb"^id="))
    end = re.search(rb"^end=(\d+)", answer, re.M)[1].decode()
    print(f"A trace of {Path(trace).stat().st_size} bytes with {messages} messages, {alerts} alerts and end={end}; both wrote the same {len(answer)} bytes.\n")
    print("| What | Rattle | Rust | Ratio |\n|---|---|---|---|")
    inside = ["--collect-atstart=no", "--toggle-collect=main"]
    both = ours, theirs
    by_script, alone, rust = milliseconds([script, ours, theirs], trace)
    for what, one, other in (
        ("instructions inside `main`", *(instructions(program, trace, *inside) for program in both)),
        ("instructions of the whole process", *(instructions(program, trace) for program in both)),
        (f"milliseconds, best of {TURNS}", alone, rust),
        ("the same by `bin/hubtrace`, which looks for changed sources first", by_script, rust),
        ("peak memory, KiB", *(peak(program, trace) for program in both)),
    ):
        first, second = (f"{figure:.2f}" if isinstance(figure, float) else figure for figure in (one, other))
        print(f"| {what} | {first} | {second} | {one / other:.2f} |")


main(*sys.argv[1:])
