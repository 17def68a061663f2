"""Runs of packets at once and singly in the programs of oracle/woken.sh, looked at by gdb in their folder (bin/measure queue): how deep each reaches below its
caller, over all inputs. The state that it is given lies with the caller; the one that it works on is its own."""
import glob
import os
import sys

import gdb

sys.path.insert(0, os.path.dirname(__file__))
from looking import paint, reached, register, returns_to

STATE = 8376  # bytes of MqttMonitor


def depth(program, name, file):
    """Bytes below the caller that the first call of a function reaches."""
    gdb.execute(f"file {program}")
    entry = gdb.Breakpoint(name)
    gdb.execute(f"run < '{file}' > /dev/null", to_string=True)
    entry.delete()
    place = register("$rsp")
    paint(place)
    gdb.execute(f"tbreak *{returns_to()}", to_string=True)
    gdb.execute("continue", to_string=True)
    deep = 8 + reached(place)
    gdb.execute("kill", to_string=True)
    return deep


files = [file for file in sorted(glob.glob("runs/*")) if not file.endswith(".out")]
for words, program, name in (("at once", "woken", "queue::run::run_packets"),
                             ("at once, in a program that inspects by value too", "beside", "queue::run::run_packets"),
                             ("singly", "singly", "singly::singly")):
    deep = max(depth(program, name, file) for file in files)
    print(f"deepest stack {words}: {deep} bytes below the caller, {deep + STATE} with the caller's state")
