"""Programs that the scripts beside this file time or count, as lines of assembly: their threads never end, unless said."""

HEADER = ["version 1", "classes 1", "global 0", "entry 0"]
ARITHMETIC = HEADER + ["fn 1 3", "int r1, 1", "add r2, r2, r1", "jmp 1"]
COMPARING = HEADER + ["fn 1 3", "eq r1, r0, r0", "mov r2, r1", "jz r1, 0", "jmp 0"]
CALLS = HEADER + ["fn 1 2", "call r1, r0, 1", "jmp 0", "fn 1 1", "ret r0"]
ALLOCATING = HEADER + ["fn 1 2", "new r1, 1, 0", "jmp 0"]
PUTTING_OUT = HEADER + ["fn 1 2", "out r0", "jmp 0"]
# a cell at r1 is counted up in a section
COUNTING = ["int r3, 1", "acq 0", "load r2, r1", "add r2, r2, r3", "store r1, r2", "rel", "jmp 2", "list", "expr r1 write"]
# one cell for all threads, and one for each
COUNTER = HEADER + ["fn 1 4", "glob r1, g0"] + COUNTING
OWN_COUNTERS = HEADER + ["fn 1 4", "new r1, 1, 0"] + COUNTING
GLOBALS = ["version 1", "classes 1"] + ["global 0"] * 64 + ["entry 0"]


def holding(count):
    """64 globals: all threads but the first enter a section of so many shared leaves and stay in it, while the first enters and
    leaves one with one lock."""
    code = ["fn 1 2", "jz r0, 3", "acq 0", "jmp 2", "acq 1", "rel", "jmp 3", "list"]
    return GLOBALS + code + ["expr g%d read" % n for n in range(count)] + ["list", "expr g0 read"]


def blocking(count):
    """All threads want the same leaves for writing; who has them keeps them."""
    return GLOBALS + ["fn 1 1", "acq 0", "jmp 1", "list"] + ["expr g%d write" % n for n in range(count)]


def text(lines):
    return "\n".join(lines) + "\n"


def pace(lines, threads, warm, turns, steps):
    """A script for `asl_probe_machine`, which steps a machine alone: each thread makes `warm` steps, then the first `turns` of them
    make so many steps in turn."""
    return "== pace\nmachine\n%s--\npace %d %d %d %d\n" % (text(lines), threads, warm, turns, steps)
