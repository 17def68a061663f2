"""The stack of inspections in a loop, once the rules are there (bin/measure loop): gdb stops oracle/src/benchloop.rs before the first message, paints the stack
below, and looks how deep the messages reached. The start, which adds the rules, reaches deeper and is not part of an inspection."""
import os
import re
import sys

import gdb

sys.path.insert(0, os.path.dirname(__file__))
from looking import paint, reached, register, returns_to

PROGRAM, CELLS = "target/oracle/benchloop", [(rules, topics) for rules in (1, 32) for topics in (1, 32, 64)]
MESSAGES = 200


def entry(name):
    """Where the function of a name begins."""
    return re.search(r"^(0x\w+)  ", gdb.execute(f"info functions {name}", to_string=True), re.M)[1]


def run_to(place):
    """The program, stopped at a place; where it returns to, if that is the entry of a function."""
    gdb.execute(f"tbreak *{place}", to_string=True)
    gdb.execute("continue", to_string=True)
    return returns_to()


def depth(side, rules, topics):
    """Bytes below the caller of SIDE_loop that its messages reach."""
    gdb.execute(f"starti {side} {rules} {topics} {MESSAGES} > /dev/null", to_string=True)
    back = run_to(entry(f"^{side}_loop$"))
    top = register("$rsp") + 8
    if side == "hub":
        for _ in range(rules):  # each is added by a call of its own
            added = run_to(entry("loops::inspections::add_pattern"))
        run_to(added)
    else:
        run_to(entry("vs_mqtt_monitor::MqttMonitor::inspect"))
    place = register("$rsp")
    paint(place)
    run_to(back)
    deep = top - place + reached(place)
    gdb.execute("kill", to_string=True)
    return deep


gdb.execute(f"file {PROGRAM}")
deepest = {side: max(depth(side, *cell) for cell in CELLS) for side in ("hub", "rust")}
print(f"deepest stack of the messages, state included: Rattle {deepest['hub']} bytes, Rust {deepest['rust']} bytes")
