"""The outcomes of a program's serial runs, by tests/reference, which shares no code with asl: what each thread puts out and how it ends, and
the heap that the globals reach, all without the numbers of objects. In a serial run one section at a time runs, to its end."""
import building
from reference.machine import Addr, Fault, Frame, Machine, Thread, inferred

MOST_STATES, MOST_STEPS = 3000, 2000


class Endless(Exception):
    """There are too many states or steps to look at all."""


def copied(machine):
    other = object.__new__(Machine)
    other.image = machine.image
    other.objects = [(kind, list(cells)) for kind, cells in machine.objects]
    other.threads = [Thread([Frame(f.function, f.pc, list(f.registers), f.awaits) for f in thread.frames], thread.depth, thread.held,
                            list(thread.fresh), thread.end) for thread in machine.threads]
    other.said = [list(said) for said in machine.said]
    return other


def key(machine):
    threads = tuple((tuple((f.pc, tuple(f.registers), f.awaits) for f in t.frames), t.end) for t in machine.threads)
    return threads, tuple((kind, tuple(cells)) for kind, cells in machine.objects), tuple(map(tuple, machine.said))


def shown(machine, value):
    if isinstance(value, Addr):
        return f"addr {machine.objects[value.object][0]}.{value.offset}"
    return "null" if value is None else f"int {value}"


def go_on(machine, t):
    """Steps the thread to the end of its next outermost section, or to its own."""
    thread = machine.threads[t]
    for _ in range(MOST_STEPS):
        depth = thread.depth
        reply = machine.step(t)
        if reply.kind == "out":
            machine.said[t].append("out " + shown(machine, reply.given))
        if not thread.frames:
            end = thread.end
            machine.said[t].append(f"fault {end.name}" if isinstance(end, Fault) else "done " + shown(machine, end))
            return
        if depth == 1 and thread.depth == 0:
            return
    raise Endless


def heap(machine):
    """What the globals reach: objects by the order in which one comes to them."""
    seen, lines = list(range(len(machine.image.global_classes))), []
    for i in range(1 << 16):
        if i == len(seen):
            return lines
        for c, value in enumerate(machine.objects[seen[i]][1]):
            if isinstance(value, Addr) and value.object not in seen:
                seen.append(value.object)
            said = f"addr {seen.index(value.object)}.{value.offset}" if isinstance(value, Addr) else shown(machine, value)
            lines.append(f"cell {i}.{c} {said}")


def serial(text, k, count):
    """The outcomes of all serial runs of so many threads, each a tuple of lines."""
    first = Machine(inferred(text, k), count)
    first.said = [[] for _ in range(count)]
    todo, seen, found = [first], {key(first)}, set()
    while todo:
        machine = todo.pop()
        running = [t for t in range(count) if machine.threads[t].frames]
        if not running:
            found.add(tuple(f"{t} {line}" for t in range(count) for line in machine.said[t]) + tuple(heap(machine)))
        for t in running:
            after = copied(machine)
            go_on(after, t)
            if key(after) not in seen:
                if len(seen) == MOST_STATES:
                    raise Endless
                seen.add(key(after))
                todo.append(after)
    return found
