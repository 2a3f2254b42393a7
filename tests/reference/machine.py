"""Images, the machine, run files and the debugger's words, by docs/FORMATS.md, docs/INSTRUCTIONS.md, docs/LOCKS.md and
docs/JOURNAL.md.

A value is a whole number, None for null, or an Addr."""
import struct
from collections import namedtuple
from dataclasses import dataclass, field

from .analysis import Analysis, Class, Expr, Root
from .source import Lowered

OPS = ["", "int", "null", "mov", "add", "sub", "lt", "eq", "glob", "field", "load", "store", "new", "jmp", "jz", "call",
       "ret", "out", "acq", "rel"]
FAULTS = ["Type", "Null", "Bounds", "Unprotected", "Full", "Stack", "Open", "Deep", "NoSection"]
EFFECTS = ["read", "write"]
MOST_OBJECTS, MOST_FRAMES, MOST_DEPTH = 65536, 256, 255

# A mode is what is claimed at a node: some reading below it, some writing below it, all reading, all writing.
SOME_READ, SOME_WRITE, ALL_READ, ALL_WRITE = 1, 2, 4, 8
MODES = {1: "IS", 3: "IX", 5: "S", 7: "SIX", 15: "X"}
OWN = {"read": SOME_READ | ALL_READ, "write": SOME_READ | SOME_WRITE | ALL_READ | ALL_WRITE}
ABOVE = {"read": SOME_READ, "write": SOME_READ | SOME_WRITE}
CLASHES = [(SOME_WRITE, ALL_READ), (SOME_READ, ALL_WRITE)]
ROOT = (0,)

Addr = namedtuple("Addr", "object offset")
Fault = namedtuple("Fault", "name cell effect", defaults=(None, None))
Reply = namedtuple("Reply", "kind given", defaults=(None,))


class Failed(Exception):
    """The thread that steps has this fault."""

    def __init__(self, *fault):
        super().__init__()
        self.fault = Fault(*fault)


@dataclass
class Image:
    version: int
    classes: int
    global_classes: list
    bodies: list
    start: int
    code: list
    lists: list

    def bytes(self):
        parts = [struct.pack(">4sHHH", b"ASLM", self.version, self.classes, len(self.global_classes))]
        parts += [struct.pack(">H", number) for number in self.global_classes]
        parts.append(struct.pack(">H", len(self.bodies)))
        parts += [struct.pack(">BBH", body.parameters, body.registers, body.end - body.start) for body in self.bodies]
        parts.append(struct.pack(">HH", self.start, len(self.code)))
        for one in self.code:
            parts.append(struct.pack(">BBBBI", OPS.index(one.op), one.a, one.b, one.c, one.d & 0xFFFFFFFF))
        parts.append(struct.pack(">H", len(self.lists)))
        for locks in self.lists:
            parts += [struct.pack(">H", len(locks)), *(lock_bytes(lock) for lock in locks)]
        return b"".join(parts)


def lock_bytes(lock):
    effect = EFFECTS.index(lock.effect)
    if isinstance(lock, Root):
        return bytes([0, effect])
    if isinstance(lock, Class):
        return struct.pack(">BBH", 1, effect, lock.number)
    base = bytes([2, effect, lock.number]) if lock.on == "r" else struct.pack(">BBH", 3, effect, lock.number)
    steps = b"".join(b"\0" if step == "*" else bytes([1, step]) for step in lock.path)
    return base + bytes([len(lock.path)]) + steps


def inferred(text, k):
    """The image that is inferred for a source text."""
    lowered = Lowered(text)
    analysis = Analysis(lowered, k)
    for one in lowered.code:
        if one.op == "new":
            one.d = analysis.site_classes[one.d]
    classes = analysis.class_count, analysis.global_classes
    return Image(2, *classes, lowered.bodies, lowered.main, lowered.code, analysis.lists)


@dataclass
class Frame:
    """`awaits` is the register of the frame below that gets the value; None in the first frame."""

    function: int
    pc: int
    registers: list
    awaits: int = None


@dataclass
class Thread:
    """A thread that runs has frames, the last of them on top; one that has ended has an `end`, a value or a fault."""

    frames: list
    depth: int = 0
    held: dict = field(default_factory=dict)
    fresh: list = field(default_factory=list)
    end: object = None

    def finish(self, end):
        self.frames, self.depth, self.held, self.fresh, self.end = [], 0, {}, [], end


def wrapped(number):
    """The number in 32 bits."""
    return (number + 2**31) % 2**32 - 2**31


class Machine:
    def __init__(self, image, count):
        self.image = image
        self.objects = [(number, [0]) for number in image.global_classes]
        body = image.bodies[image.start]
        self.threads = [Thread([Frame(image.start, body.start, [t] + [0] * (body.registers - 1))]) for t in range(count)]

    def step(self, t):
        """Makes a step of the thread, and answers its reply."""
        thread = self.threads[t]
        if not thread.frames:
            return Reply("ended")
        frame = thread.frames[-1]
        one = self.image.code[frame.pc]
        try:
            return getattr(self, f"do_{one.op}")(thread, frame, one) or Reply("ran")
        except Failed as failed:
            thread.finish(failed.fault)
            return Reply("fault", failed.fault)

    def set(self, frame, register, value):
        """Gives the register its value, and continues at the next instruction."""
        frame.registers[register] = value
        frame.pc += 1

    def do_int(self, thread, frame, one):
        self.set(frame, one.a, one.d)

    def do_null(self, thread, frame, one):
        self.set(frame, one.a, None)

    def do_mov(self, thread, frame, one):
        self.set(frame, one.a, frame.registers[one.b])

    def numbers(self, frame, one):
        pair = frame.registers[one.b], frame.registers[one.c]
        if not all(isinstance(value, int) for value in pair):
            raise Failed("Type")
        return pair

    def do_add(self, thread, frame, one):
        left, right = self.numbers(frame, one)
        self.set(frame, one.a, wrapped(left + right))

    def do_sub(self, thread, frame, one):
        left, right = self.numbers(frame, one)
        self.set(frame, one.a, wrapped(left - right))

    def do_lt(self, thread, frame, one):
        left, right = self.numbers(frame, one)
        self.set(frame, one.a, int(left < right))

    def do_eq(self, thread, frame, one):
        self.set(frame, one.a, int(frame.registers[one.b] == frame.registers[one.c]))

    def do_glob(self, thread, frame, one):
        self.set(frame, one.a, Addr(one.d, 0))

    def address(self, value):
        if value is None:
            raise Failed("Null")
        if isinstance(value, int):
            raise Failed("Type")
        return value

    def do_field(self, thread, frame, one):
        at = self.address(frame.registers[one.b])
        if at.offset + one.d >= len(self.objects[at.object][1]):
            raise Failed("Bounds")
        self.set(frame, one.a, Addr(at.object, at.offset + one.d))

    def accessed(self, thread, value, effect):
        """The cell that the value is the address of, where the thread may access it so: in a section, a cell of an
        object that is fresh for it, or one over which it has a lock of this effect."""
        cell = self.address(value)
        if cell.object in thread.fresh:
            return cell
        nodes = [ROOT, (1, self.objects[cell.object][0]), (2, *cell)]
        if thread.depth == 0 or not any(thread.held.get(node, 0) & OWN[effect] == OWN[effect] for node in nodes):
            raise Failed("Unprotected", cell, effect)
        return cell

    def do_load(self, thread, frame, one):
        cell = self.accessed(thread, frame.registers[one.b], "read")
        self.set(frame, one.a, self.objects[cell.object][1][cell.offset])

    def do_store(self, thread, frame, one):
        cell = self.accessed(thread, frame.registers[one.a], "write")
        self.objects[cell.object][1][cell.offset] = frame.registers[one.b]
        frame.pc += 1

    def do_new(self, thread, frame, one):
        if len(self.objects) == MOST_OBJECTS:
            raise Failed("Full")
        if self.image.version == 2 and thread.depth > 0:
            thread.fresh.append(len(self.objects))
        self.set(frame, one.a, Addr(len(self.objects), 0))
        self.objects.append((one.d, [0] * one.b))

    def do_jmp(self, thread, frame, one):
        frame.pc = one.d

    def do_jz(self, thread, frame, one):
        value = frame.registers[one.a]
        frame.pc = one.d if value is None or value == 0 else frame.pc + 1

    def do_call(self, thread, frame, one):
        if len(thread.frames) == MOST_FRAMES:
            raise Failed("Stack")
        body = self.image.bodies[one.d]
        given = frame.registers[one.b : one.b + body.parameters]
        frame.pc += 1
        thread.frames.append(Frame(one.d, body.start, given + [0] * (body.registers - body.parameters), one.a))

    def do_ret(self, thread, frame, one):
        value = frame.registers[one.a]
        if len(thread.frames) > 1:
            thread.frames.pop()
            thread.frames[-1].registers[frame.awaits] = value
        elif thread.depth > 0:
            raise Failed("Open")
        else:
            thread.finish(value)

    def do_out(self, thread, frame, one):
        frame.pc += 1
        return Reply("out", frame.registers[one.a])

    def do_acq(self, thread, frame, one):
        if thread.depth == MOST_DEPTH:
            raise Failed("Deep")
        if thread.depth == 0:
            request = self.request(frame.registers, self.image.lists[one.d])
            others = [other for other in self.threads if other is not thread]
            if any(clash(mode, other.held.get(node, 0)) for node, mode in request.items() for other in others):
                return Reply("blocked")
            thread.held = request
        thread.depth += 1
        frame.pc += 1
        return None

    def do_rel(self, thread, frame, one):
        if thread.depth == 0:
            raise Failed("NoSection")
        thread.depth -= 1
        frame.pc += 1
        if thread.depth == 0:
            thread.held, thread.fresh = {}, []

    def request(self, registers, locks):
        """The mode that a list asks for at each node."""
        modes = {}
        for lock in locks:
            *above, node = self.nodes(registers, lock) or [None]
            if node is not None:
                for one in above:
                    modes[one] = modes.get(one, 0) | ABOVE[lock.effect]
                modes[node] = modes.get(node, 0) | OWN[lock.effect]
        return modes

    def nodes(self, registers, lock):
        """The nodes from the root to that of the lock; None where an expression denotes no cell."""
        if isinstance(lock, Root):
            return [ROOT]
        if isinstance(lock, Class):
            return [ROOT, (1, lock.number)]
        at = registers[lock.number] if lock.on == "r" else Addr(lock.number, 0)
        for step in lock.path:
            if not isinstance(at, Addr):
                return None
            cells = self.objects[at.object][1]
            if step == "*":
                at = cells[at.offset]
            elif at.offset + step < len(cells):
                at = Addr(at.object, at.offset + step)
            else:
                return None
        return [ROOT, (1, self.objects[at.object][0]), (2, *at)] if isinstance(at, Addr) else None

    def view(self):
        """The lines of the debugger's view."""
        lines = []
        for t, thread in enumerate(self.threads):
            lines += thread_lines(t, thread)
        for number, (_, cells) in enumerate(self.objects):
            lines += [f"cell {number}.{offset} {value_text(value)}" for offset, value in enumerate(cells)]
        for t, thread in enumerate(self.threads):
            lines += [f"held {t} {node_text(node)} {MODES[thread.held[node]]}" for node in sorted(thread.held)]
        for t, thread in enumerate(self.threads):
            lines += [f"fresh {t} {number}" for number in thread.fresh]
        return lines


    def asked(self, t):
        """What the thread asks for at each node, where it stands at an `acq` in no section, else None."""
        thread = self.threads[t]
        if not thread.frames or thread.depth > 0:
            return None
        frame = thread.frames[-1]
        one = self.image.code[frame.pc]
        return self.request(frame.registers, self.image.lists[one.d]) if one.op == "acq" else None

    def asks(self):
        """The lines of the debugger's word `asks`."""
        lines = []
        for t in range(len(self.threads)):
            request = self.asked(t)
            if request is None:
                continue
            nodes = sorted(request)
            lines += [f"asks {t} {node_text(node)} {MODES[request[node]]}" for node in nodes] or [f"asks {t}"]
            for node in nodes:
                for other, thread in enumerate(self.threads):
                    if other != t and clash(request[node], thread.held.get(node, 0)):
                        lines.append(f"clash {t} {node_text(node)} {MODES[request[node]]} {other} {MODES[thread.held[node]]}")
        return lines

    def stack(self):
        """The lines of the debugger's word `stack`."""
        lines = []
        for t, thread in enumerate(self.threads):
            for number, frame in enumerate(reversed(thread.frames)):
                lines.append(f"frame {t} {number} fn {frame.function} pc {frame.pc}")
                lines += [f"local {t} {number} {register} {value_text(value)}" for register, value in enumerate(frame.registers)]
        return lines

    def object_lines(self):
        """The lines of the debugger's word `objects`."""
        return [f"object {number} {kind} {len(cells)}" for number, (kind, cells) in enumerate(self.objects)]


def clash(one, other):
    return any(one & a and other & b or one & b and other & a for a, b in CLASHES)


def value_text(value):
    if value is None:
        return "null"
    return f"int {value}" if isinstance(value, int) else f"addr {value.object}.{value.offset}"


def node_text(node):
    kind, *numbers = node
    return ["root", "class {}", "leaf {}.{}"][kind].format(*numbers)


def thread_lines(t, thread):
    if isinstance(thread.end, Fault):
        name, cell, effect = thread.end
        return [f"thread {t} failed {name}" + (f" {cell.object}.{cell.offset} {effect}" if cell else "")]
    if not thread.frames:
        return [f"thread {t} done {value_text(thread.end)}"]
    frame = thread.frames[-1]
    registers = [f"reg {t} {register} {value_text(value)}" for register, value in enumerate(frame.registers)]
    return [f"thread {t} pc {frame.pc} depth {thread.depth}", *registers]


def reply_text(reply):
    if reply.kind == "out":
        return f"out {value_text(reply.given)}"
    if reply.kind == "fault":
        name, cell, effect = reply.given
        return f"fault {name}" + (f" {cell.object}.{cell.offset} {effect}" if cell else "")
    return reply.kind


def reply_bytes(reply):
    kind = ["ran", "out", "blocked", "ended", "fault"].index(reply.kind)
    return bytes([kind]) + {"out": value_bytes, "fault": fault_bytes}.get(reply.kind, lambda given: b"")(reply.given)


def value_bytes(value):
    if value is None:
        return b"\1"
    return struct.pack(">Bi", 0, value) if isinstance(value, int) else struct.pack(">BHB", 2, *value)


def fault_bytes(fault):
    cell = struct.pack(">HBB", *fault.cell, EFFECTS.index(fault.effect)) if fault.cell else b""
    return bytes([FAULTS.index(fault.name)]) + cell


class Run:
    """A recorded run of so many threads, by a schedule of their numbers."""

    def __init__(self, image, count, schedule):
        self.image, self.count, self.schedule = image, count, schedule
        self.places, self.depths, self.replies = [], [], []
        machine = Machine(image, count)
        for t in schedule:
            frames = machine.threads[t].frames
            self.places.append(frames[-1].pc if frames else None)
            self.depths.append(machine.threads[t].depth)
            self.replies.append(machine.step(t))

    def bytes(self):
        """The run file."""
        image = self.image.bytes()
        version = 1 if self.count <= 64 else 2
        head = struct.pack(">4sHBI", b"ASLJ", version, self.count, len(self.schedule))
        events = [bytes([t]) + reply_bytes(reply) for t, reply in zip(self.schedule, self.replies)]
        return struct.pack(">I", len(image)) + image + head + b"".join(events)

    def log(self, trace=False):
        """The lines of `log`."""
        lines = []
        for number, (t, reply) in enumerate(zip(self.schedule, self.replies)):
            pc, depth = self.places[number], self.depths[number]
            place = ("- - " if pc is None else f"{pc} {depth} ") if trace else ""
            lines.append(f"{number} {t} {place}{reply_text(reply)}")
        return lines

    def machine_at(self, position):
        machine = Machine(self.image, self.count)
        for t in self.schedule[:position]:
            machine.step(t)
        return machine

    def debug(self, words):
        """The lines that the debugger answers."""
        lines, position, breakpoints, words = [], 0, set(), iter(words)
        for word in words:
            if word in ("break", "clear"):
                number = int(next(words))
                (breakpoints.add if word == "break" else breakpoints.discard)(number)
                lines.append(f"{word} {number}")
            elif word in ("view", "asks", "stack", "objects"):
                machine = self.machine_at(position)
                shows = {"view": machine.view, "asks": machine.asks, "stack": machine.stack, "objects": machine.object_lines}
                lines += shows[word]()
            else:
                moved = self.moved(word, position, breakpoints, words)
                position = position if isinstance(moved, str) else moved
                lines.append(f"refused {moved}" if isinstance(moved, str) else f"at {moved}")
        return lines

    def moved(self, word, position, breakpoints, words):
        """The position that a word moves to, or why it does not."""
        end = len(self.schedule)
        if word == "goto":
            number = int(next(words))
            return number if number <= end else "NoSuchStep"
        if word in ("forward", "next") and position == end:
            return "AtEnd"
        if word in ("back", "prev") and position == 0:
            return "AtStart"
        if word in ("forward", "back"):
            return position + (1 if word == "forward" else -1)
        way = range(position + 1, end) if word == "next" else range(position - 1, -1, -1)
        return next((at for at in way if self.places[at] in breakpoints), end if word == "next" else 0)
