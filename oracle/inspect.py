"""The public `inspect` in the program `calls`, looked at by gdb (bin/measure inspect): the copies that one call makes, its deepest stack below the
caller, and its instructions. The script given to the program ends in that call; the ones before it only count up to it."""
import os
import sys

import gdb

sys.path.insert(0, os.path.dirname(__file__))
from looking import register, returns_to

PROGRAM, SCRIPT, BEFORE = "crates/calls/out/calls", "target/inspect.in", 39
STATE = 8376  # bytes of MqttMonitor


def started():
    """The program, stopped at the entry of the last inspection; the place that it returns to."""
    gdb.execute(f"file {PROGRAM}")
    entry = gdb.Breakpoint("monitor::inspection::inspect")
    gdb.execute(f"run < {SCRIPT} > /dev/null", to_string=True)
    for _ in range(BEFORE):
        gdb.execute("continue", to_string=True)
    entry.delete()
    return returns_to()


back = started()
top = low = register("$rsp")
steps = 0
while register("$pc") != back:
    gdb.execute("stepi", to_string=True)
    low, steps = min(low, register("$rsp")), steps + 1
gdb.execute("kill", to_string=True)

back = started()
gdb.execute(f"tbreak *{back}", to_string=True)
gdb.Breakpoint("memcpy")
copied = []
while register("$pc") != back:
    gdb.execute("continue", to_string=True)
    copied.append(register("$rdx"))
copied.pop()
print(f"inspect by value: {copied.count(STATE)} copies of the state ({STATE} bytes), {sum(copied)} bytes copied in all; "
      f"deepest stack below the caller {top - low} bytes; {steps} instructions, each turn of a string copy counted")
