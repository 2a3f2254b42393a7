"""What `asl explain` tells below locks on classes, and of what a text may lack: by `asl map`, by `asl explain --classes`, and for pointers
that point to no class by tests/reference, which shares no code with the program."""
import re

from reference.analysis import Merging

FUNCTIONS = "missing in the text: calls of these functions, which main does not reach"
ACCESSES = "missing in the text: what fills the pointers of these accesses, which have no lock"
SECTION = re.compile(r"section (\d+), ")
LOCK = re.compile(r"  class (\d+) (?:read|write) ")
CLASS = re.compile(r"class (\d+): ")
PAIR = re.compile(r"  +.* are one class, since$")
GROUND = re.compile(r"  +(.* point to one class, since|and more such reasons)$")
AGAIN = re.compile(r"    why one class: see section \d+$")
WITHOUT = re.compile(r"    without line \d+ they would be two$")


def renamed(draw, text, locals_):
    """The text; in half of all cases its globals g0, g1, .. have the names of locals."""
    return re.sub(r"\bg(\d)\b", lambda found: locals_[int(found[1])], text) if draw.random() < 0.5 else text


class Names:
    """The names, lines and statements of a text, as `asl map` prints them."""

    def __init__(self, text, rows):
        self.text, self.registers, self.globals, self.functions = text, {}, {}, {}
        self.unreached, self.sections, self.places = set(), [], {}
        for word, *rest in rows:
            if word == "register":
                self.registers[int(rest[0]), int(rest[1])] = rest[2]
            elif word == "global":
                self.globals[int(rest[0])] = rest[1]
            elif word == "function":
                self.functions[int(rest[0])] = (rest[1], self.line(int(rest[2])))
            elif word == "unreached":
                self.unreached.add(int(rest[0]))
            elif word == "section":
                self.sections.append((int(rest[1]), self.line(int(rest[2]))))
            elif word == "place":
                self.places[int(rest[0])] = (int(rest[1]), int(rest[2]))

    def line(self, place):
        return self.text.count("\n", 0, place) + 1

    def base(self, function, register):
        """The words for a register: where a global has the name of the local, behind the name of the function."""
        name, of = self.registers.get((function, register)), self.functions[function][0]
        if name is None:
            return f"{of}.{register}"
        return f"{of}.{name}" if name in self.globals.values() else name

    def pointer(self, lowered, function, register):
        name, of = self.registers.get((function, register)), self.functions[function][0]
        if name is None:
            named = sum(1 for owner, _ in self.registers if owner == function)
            return f"argument {register - named + 1} of calls in {of}"
        return ("parameter " if register < lowered.bodies[function].parameters else "") + f"`{name}` of {of}"


def lacking(names, lowered):
    """The lines of what the text may lack."""
    lines, merging = [], Merging(lowered)
    for number in sorted(names.unreached):
        name, line = names.functions[number]
        sections = ", ".join(f"line {line}" for function, line in names.sections if function == number)
        lines.append(f"      line {line:<4} {name:<22} " + (f"with sections: {sections}" if sections else "without a section"))
    lines[:0] = [FUNCTIONS] * bool(lines)
    accesses = []
    for function, body in enumerate(lowered.bodies):
        for pc in body.pcs():
            one = lowered.code[pc]
            register = {"load": one.b, "store": one.a}.get(one.op)
            if register is not None and function not in names.unreached and merging.where((function, register)) is None:
                start, end = names.places[pc]
                statement = " ".join(names.text[start : end - 1].split())
                words = f"{names.pointer(lowered, function, register)} points to no class"
                accesses.append(f"      line {names.line(start):<4} {statement:<22} {words}")
    return lines + [""] * bool(lines and accesses) + [ACCESSES] * bool(accesses) + accesses


def without_parting(lines):
    """The lines but for those of instructions that part two members: as many are tried for a class as for a whole explanation."""
    return [line for line in lines if not WITHOUT.match(line)]


def blocks(text):
    """The lines below each lock on a class that say why its members share it, with the section and the class."""
    section, found, is_inside = None, [], False
    for line in text.splitlines():
        head, lock = SECTION.match(line), LOCK.match(line)
        section = int(head[1]) if head else section
        if lock:
            found.append((section, int(lock[1]), []))
        is_inside = bool(found) and bool(line) and not lock and (is_inside or bool(PAIR.match(line) or AGAIN.match(line)))
        if is_inside:
            found[-1][2].append(line)
    return [(section, number, without_parting(lines)) for section, number, lines in found]


def wanted_blocks(text, classes):
    """So, by what `explain --classes` says of each class."""
    reasons, number = {}, None
    for line in without_parting(classes.splitlines()):
        head = CLASS.match(line)
        number = int(head[1]) if head else number
        if head:
            reasons[number] = []
        elif line:
            reasons[number].append(f"  {line}" if PAIR.match(line) or GROUND.match(line) else line)
    first, wanted = {}, []
    for section, number, _ in blocks(text):
        again = [f"    why one class: see section {first[number]}"] if number in first and reasons[number] else []
        wanted.append((section, number, again if number in first else reasons[number]))
        first.setdefault(number, section)
    return wanted
