"""Run files that a few kilobytes make hard, as bench/hard.py has sources: each is a product of factors. `asm` gives the image of an
assembly text."""
import struct

RAN, BLOCKED = b"\0", b"\2"


def run_file(image, threads, events):
    """The run file of a program and of events, each a thread and its reply."""
    journal = b"".join(bytes([thread]) + reply for thread, reply in events)
    head = b"ASLJ" + struct.pack(">HBI", 2 if threads > 64 else 1, threads, len(events))
    return struct.pack(">I", len(image)) + image + head + journal


def globals_of(count):
    return [f"global {n}" for n in range(count)]


def locks_of(count):
    return [f"expr g{n} write" for n in range(count)]


def blocked(asm, events, locks):
    """So many events of a thread that is blocked by the last of so many locks."""
    code = ["entry 0", "fn 1 1", "jz r0, 3", "acq 0", "jmp 2", "acq 1", "jmp 4"]
    lists = ["list", *locks_of(locks), "list", f"expr g{locks - 1} write"]
    image = asm(["version 2", f"classes {locks}", *globals_of(locks), *code, *lists])
    return run_file(image, 2, [(0, RAN), (0, RAN), (1, RAN)] + [(1, BLOCKED)] * events)


def heap(asm, objects, threads, locks):
    """So many objects of 255 cells, made by a thread that holds so many locks, for which the other threads wait."""
    code = ["entry 0", "fn 1 2", "acq 0"] + ["new r1, 255, 0"] * 500 + ["jmp 1", "list", *locks_of(locks)]
    image = asm(["version 2", f"classes {max(1, locks)}", *globals_of(locks), *code])
    made = [(0, RAN)] * (objects + (max(0, objects - 1)) // 500)
    return run_file(image, threads, [(0, RAN)] + [(t, BLOCKED) for t in range(1, threads)] + made)


def deep(asm, threads, frames):
    """So many threads, each in so many calls of a function with 64 registers."""
    image = asm(["version 2", "classes 1", "entry 0", "fn 1 64", "call r1, r0, 0", "ret r0"])
    return run_file(image, threads, [(thread, RAN) for thread in range(threads) for _ in range(frames)])


def granted(asm, events, locks):
    """A thread that is granted so many locks and gives them back, so many events."""
    code = ["entry 0", "fn 1 1", "acq 0", "rel", "jmp 0"]
    image = asm(["version 2", f"classes {locks}", *globals_of(locks), *code, "list", *locks_of(locks)])
    return run_file(image, 1, [(0, RAN)] * events)
