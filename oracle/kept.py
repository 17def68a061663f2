"""A load and a write of settings in the program of oracle/kept.sh, looked at by gdb in that program's folder (bin/measure settings): how deep the first call of
each reaches below its caller. The monitor that is handed back or given lies with the caller."""
import os
import sys

import gdb

sys.path.insert(0, os.path.dirname(__file__))
from looking import paint, reached, register, returns_to


def depth(name):
    """Bytes below the caller that the first call of a function reaches."""
    entry = gdb.Breakpoint(name)
    gdb.execute("run < crates/kept/stdin > /dev/null", to_string=True)
    entry.delete()
    place = register("$rsp")
    paint(place)
    gdb.execute(f"tbreak *{returns_to()}", to_string=True)
    gdb.execute("continue", to_string=True)
    deep = 8 + reached(place)
    gdb.execute("kill", to_string=True)
    return deep


gdb.execute("file crates/kept/out/kept")
load, write = depth("settings::load::load_settings"), depth("settings::write::write_settings")
print(f"| deepest stack below the caller, bytes | {load} | {write} |")
