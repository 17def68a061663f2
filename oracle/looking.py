"""What the scripts share that look at a program by gdb (bin/measure inspect, loop, settings): registers, and how deep a stack was reached, by painting it."""
import gdb

ROOM, PAINT = 65536, b"\xa5"

for word in ("pagination off", "confirm off"):
    gdb.execute(f"set {word}")


def register(name):
    return int(gdb.parse_and_eval(name))


def returns_to():
    """Where the function returns to at whose entry the program is stopped."""
    return int(gdb.parse_and_eval("*(unsigned long *)$rsp"))


def paint(place):
    """Paints the stack below a place."""
    gdb.selected_inferior().write_memory(place - ROOM, PAINT * ROOM)


def reached(place):
    """How many bytes below that place were written since."""
    left = bytes(gdb.selected_inferior().read_memory(place - ROOM, ROOM))
    kept = len(left) - len(left.lstrip(PAINT))
    assert kept > 0, "deeper than the painted part"
    return ROOM - kept
