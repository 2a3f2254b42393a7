"""Classes, links, needed locks and lists, by docs/ANALYSIS.md. Of the limits of that page only the 256 locks of a list are judged
here, since a list of more becomes another one; what the program refuses is not."""
from dataclasses import dataclass

MOST_LOCKS = 256
WITHOUT_TARGET = ("out", "jmp", "jz", "ret", "acq", "rel")


@dataclass(frozen=True)
class Expr:
    """A lock on the cell that a path comes to; `on` is `r` or `g`, a step is `*` or an offset."""

    on: str
    number: int
    path: tuple
    effect: str

    def text(self):
        steps = "".join(" *" if step == "*" else f" .{step}" for step in self.path)
        return f"expr {self.on}{self.number}{steps} {self.effect}"

    def order(self):
        """Registers before globals, a path before its extensions, `*` before `.0`, read before write."""
        return 2, self.on == "g", self.number, tuple(-1 if step == "*" else step for step in self.path), self.effect


@dataclass(frozen=True)
class Class:
    """A lock on all objects of a class."""

    number: int
    effect: str

    def text(self):
        return f"class {self.number} {self.effect}"

    def order(self):
        return 1, self.number, self.effect


@dataclass(frozen=True)
class Root:
    """A lock on everything."""

    effect: str

    def text(self):
        return f"root {self.effect}"

    def order(self):
        return 0, self.effect


class Merging:
    """The least legal classes, found by merging members where an instruction is owed that two are one.

    Members are the globals, and after them the sites. A class is known by its first member while it grows. A slot is a
    register of a function, `(function, register)`, or the cells of a class, which is then the class's first member."""

    def __init__(self, lowered):
        self.lowered = lowered
        self.above = list(range(len(lowered.globals) + lowered.sites))
        self.points = {}
        self.has_changed = True
        while self.has_changed:
            self.has_changed = False
            for function, body in enumerate(lowered.bodies):
                for pc in body.pcs():
                    self.pay(function, lowered.code[pc])

    def first(self, member):
        while self.above[member] != member:
            member = self.above[member]
        return member

    def where(self, slot):
        """The class that the slot points to, or None."""
        found = self.points.get(slot)
        return None if found is None else self.first(found)

    def point(self, slot, member):
        """Sees to it that the slot points to the member's class; nothing where there is no member."""
        if member is None:
            return
        found = self.where(slot)
        if found is None:
            self.points[slot] = member
            self.has_changed = True
        else:
            self.merge(found, self.first(member))

    def merge(self, one, other):
        if one == other:
            return
        low, high = sorted((one, other))
        self.above[high] = low
        self.has_changed = True
        self.point(low, self.points.pop(high, None))

    def pay(self, function, one):
        """Gives an instruction what it is owed."""
        a, b = (function, one.a), (function, one.b)
        if one.op in ("mov", "field"):
            self.point(a, self.where(b))
        elif one.op == "glob":
            self.point(a, one.d)
        elif one.op == "new":
            self.point(a, len(self.lowered.globals) + one.d)
        elif one.op == "load":
            cells = self.where(b)
            self.point(a, None if cells is None else self.where(cells))
        elif one.op == "store":
            cells = self.where(a)
            if cells is not None:
                self.point(cells, self.where(b))
        elif one.op == "call":
            callee = self.lowered.bodies[one.d]
            for parameter in range(callee.parameters):
                self.point((one.d, parameter), self.where((function, one.b + parameter)))
            self.point(a, self.where((one.d, callee.result)))


class Analysis:
    """What is found of a lowered program, with paths of at most k operations."""

    def __init__(self, lowered, k):
        self.lowered, self.k = lowered, k
        self.number_classes(Merging(lowered))
        self.function_at = {pc: number for number, body in enumerate(lowered.bodies) for pc in body.pcs()}
        self.find_written()
        self.find_inner()
        self.find_needed()
        self.lists = [self.list_of(number) for number in range(len(lowered.sections))]

    def number_classes(self, merging):
        """Classes are numbered by their first members."""
        firsts = [merging.first(member) for member in range(len(merging.above))]
        number = {first: at for at, first in enumerate(dict.fromkeys(firsts))}
        members = [number[first] for first in firsts]
        self.global_classes = members[: len(self.lowered.globals)]
        self.site_classes = members[len(self.lowered.globals) :]
        self.class_count = len(number)
        found = {slot: number[merging.where(slot)] for slot in merging.points}
        self.register_classes = {slot: target for slot, target in found.items() if isinstance(slot, tuple)}
        self.cell_classes = {number[slot]: target for slot, target in found.items() if not isinstance(slot, tuple)}

    def base_class(self, function, expr):
        """The class of the base, or None."""
        if expr.on == "g":
            return self.global_classes[expr.number]
        return self.register_classes.get((function, expr.number))

    def walk(self, function, expr):
        """The class before each step of the path, and after the last one; None from where it has none on."""
        classes = [self.base_class(function, expr)]
        for step in expr.path:
            classes.append(self.cell_classes.get(classes[-1]) if step == "*" else classes[-1])
        return classes

    def class_of(self, function, expr):
        return self.walk(function, expr)[-1]

    def as_class(self, function, expr):
        """The lock on the expression's class, where it has one."""
        found = self.class_of(function, expr)
        return [] if found is None else [Class(found, expr.effect)]

    def find_written(self):
        """The classes that each function may store to, itself or through what it calls."""
        self.written = [set() for _ in self.lowered.bodies]
        before = None
        while before != [len(classes) for classes in self.written]:
            before = [len(classes) for classes in self.written]
            for pc, one in enumerate(self.lowered.code):
                function = self.function_at[pc]
                if one.op == "store":
                    self.written[function] |= {self.register_classes.get((function, one.a))} - {None}
                elif one.op == "call":
                    self.written[function] |= self.written[one.d]

    def find_inner(self):
        """The functions that are called in a section, or by such a function."""
        in_sections = {pc for section in self.lowered.sections for pc in section.pcs()}
        self.inner = set()
        before = -1
        while before != len(self.inner):
            before = len(self.inner)
            for pc, one in enumerate(self.lowered.code):
                if one.op == "call" and (pc in in_sections or self.function_at[pc] in self.inner):
                    self.inner.add(one.d)

    def link(self, pc, lock):
        """The locks that a lock after the instruction becomes before it."""
        one, function = self.lowered.code[pc], self.function_at[pc]
        if not isinstance(lock, Expr):
            return [lock]
        is_on_a = (lock.on, lock.number) == ("r", one.a)
        if one.op == "store":
            return self.link_store(function, one, lock)
        if one.op == "call":
            classes = self.walk(function, lock)
            moves = any(step == "*" and at in self.written[one.d] for step, at in zip(lock.path, classes))
            return self.as_class(function, lock) if is_on_a or moves else [lock]
        if one.op in WITHOUT_TARGET or not is_on_a:
            return [lock]
        if one.op == "mov":
            return [Expr("r", one.b, lock.path, lock.effect)]
        if one.op == "glob":
            return [Expr("g", one.d, lock.path, lock.effect)]
        if one.op == "field":
            return [Expr("r", one.b, (one.d, *lock.path), lock.effect)]
        if one.op == "load":
            return [Expr("r", one.b, ("*", *lock.path), lock.effect)]
        return []  # a number, null, or the address of an object that is fresh

    def link_store(self, function, one, lock):
        """A `*` at an address of the class that is stored to may read what is stored; one that begins the path on the
        register of the address surely does."""
        stored = self.register_classes.get((function, one.a))
        reads_stored = (lock.on, lock.number) == ("r", one.a) and lock.path[:1] == ("*",)
        linked = [] if reads_stored else [lock]
        for at, (step, found) in enumerate(zip(lock.path, self.walk(function, lock))):
            if step == "*" and found is not None and found == stored:
                linked.append(Expr("r", one.b, lock.path[at + 1 :], lock.effect))
        return linked

    def settle(self, function, lock):
        """Drops an expression without a class, and makes one whose path is too long its class."""
        if not isinstance(lock, Expr):
            return [lock]
        found = self.class_of(function, lock)
        if found is None:
            return []
        return [Class(found, lock.effect)] if len(lock.path) > self.k else [lock]

    def close(self, function, locks):
        """The locks settled, with what evaluating them reads."""
        closed = {settled for lock in locks for settled in self.settle(function, lock)}
        for lock in [lock for lock in closed if isinstance(lock, Expr)]:
            for at, step in enumerate(lock.path):
                if step == "*":
                    closed.add(Expr(lock.on, lock.number, lock.path[:at], "read"))
        return closed

    def find_needed(self):
        """What each region needs at each of its places: the least sets that keep the rules, from empty ones on."""
        regions = {("section", number): section.pcs() for number, section in enumerate(self.lowered.sections)}
        regions |= {("body", number): self.lowered.bodies[number].pcs() for number in self.inner}
        self.needed = {region: {pc: set() for pc in pcs} for region, pcs in regions.items()}
        has_changed = True
        while has_changed:
            has_changed = False
            for places in self.needed.values():
                for pc in reversed(places):
                    found = self.needed_at(places, pc)
                    has_changed |= not found <= places[pc]
                    places[pc] |= found

    def needed_at(self, places, pc):
        one, function = self.lowered.code[pc], self.function_at[pc]
        behind = {lock for after in self.successors(pc) for lock in places.get(after, ())}
        locks = [linked for lock in behind for linked in self.link(pc, lock)]
        if one.op == "load":
            locks.append(Expr("r", one.b, (), "read"))
        if one.op == "store":
            locks.append(Expr("r", one.a, (), "write"))
        if one.op == "call":
            locks += self.of_callee(one)
        return self.close(function, locks)

    def successors(self, pc):
        one = self.lowered.code[pc]
        return {"jmp": [one.d], "jz": [pc + 1, one.d], "ret": []}.get(one.op, [pc + 1])

    def of_callee(self, one):
        """What the callee needs at its entry of what it was given, in the caller's registers."""
        callee = self.lowered.bodies[one.d]
        for lock in self.needed["body", one.d][callee.start]:
            if not isinstance(lock, Expr) or lock.on == "g":
                yield lock
            elif lock.number < callee.parameters:
                yield Expr("r", one.b + lock.number, lock.path, lock.effect)

    def absorbs(self, function, one, other):
        """Whether the first of two locks does in place of the second."""
        if one == other or (one.effect, other.effect) == ("read", "write"):
            return False
        if isinstance(one, Class):
            return one.number == (self.class_of(function, other) if isinstance(other, Expr) else other.number)
        return isinstance(other, Expr) and (one.on, one.number, one.path) == (other.on, other.number, other.path)

    def reduced(self, function, locks):
        return {lock for lock in locks if not any(self.absorbs(function, one, lock) for one in locks)}

    def list_of(self, number):
        """The section's list: what is needed after its `acq`, reduced, and in one order."""
        section = self.lowered.sections[number]
        function = section.function
        locks = self.reduced(function, self.needed["section", number].get(section.acq + 1, set()))
        if len(locks) > MOST_LOCKS:
            classes = [self.as_class(function, lock) if isinstance(lock, Expr) else [lock] for lock in locks]
            locks = self.reduced(function, {lock for some in classes for lock in some})
        if len(locks) > MOST_LOCKS:
            locks = {Root(max(lock.effect for lock in locks))}
        return sorted(locks, key=lambda lock: lock.order())
