"""Whether the lists of an image are enough for a source, by docs/ANALYSIS.md, "Lists of your own"."""
from .analysis import Analysis, Class, Expr, Root
from .machine import inferred
from .source import Lowered


class Checking:
    """What a source text needs, with paths of at most k operations."""

    def __init__(self, text, k):
        self.analysis = Analysis(Lowered(text), k)
        self.own = inferred(text, k)

    def refusals(self, image):
        """The names of all why the image is not checked for the text, in the order in which it is judged: none where it is."""
        pc = other_code(self.own, image)
        if pc is not None:
            return [f"OtherCode({pc}): {both_at(self.own, image, pc)}"]
        # (a cell may be read by several expressions of a list)
        return list(dict.fromkeys(f"{name}({number}, {lock.text()})" for name, number, lock in self.lacking(image)))

    def lacking(self, image):
        """Each lock that the list of a section of the image lacks: why, the number of the section, the lock."""
        for name, locks_of in [("Uncovered", needed), ("Unguarded", read)]:
            for number, section in enumerate(self.analysis.lowered.sections):
                for lock in locks_of(self.analysis, image, number):
                    if not any(stands_over(self.analysis, section.function, over, lock) for over in image.lists[number]):
                        yield name, number, lock


def other_code(own, image):
    """The first instruction that is not the source's; the number of instructions where a table is not; None where all is."""
    for pc, (one, other) in enumerate(zip(image.code, own.code)):
        if one != other:
            return pc
    if len(image.code) != len(own.code):
        return min(len(image.code), len(own.code))
    return None if tables(image) == tables(own) else len(image.code)


# how an assembly text has an instruction: where its fields stand
TEXTS = {
    "int": "r{a}, {d}", "null": "r{a}", "mov": "r{a}, r{b}", "add": "r{a}, r{b}, r{c}", "sub": "r{a}, r{b}, r{c}",
    "lt": "r{a}, r{b}, r{c}", "eq": "r{a}, r{b}, r{c}", "glob": "r{a}, g{d}", "field": "r{a}, r{b}, {d}", "load": "r{a}, r{b}",
    "store": "r{a}, r{b}", "new": "r{a}, {b}, {d}", "jmp": "{d}", "jz": "r{a}, {d}", "call": "r{a}, r{b}, {d}", "ret": "r{a}",
    "out": "r{a}", "acq": "{d}", "rel": "",
}


def instruction(one):
    return "`" + f"{one.op} {TEXTS[one.op].format(a=one.a, b=one.b, c=one.c, d=one.d)}".strip() + "`"


def function_at(image, pc):
    return next(number for number, body in enumerate(image.bodies) if pc in body.pcs())


def both_at(own, image, pc):
    """What the source and the program have at a pc."""
    if pc < len(own.code):
        rest = f"the program has {instruction(image.code[pc])}" if pc < len(image.code) else "the program has none"
        return f"function {function_at(own, pc)} of the source has {instruction(own.code[pc])} there, and {rest}"
    if pc < len(image.code):
        return f"function {function_at(image, pc)} of the program has {instruction(image.code[pc])} there, and the source has none"
    return "the code is the source's, and the version or a table is not"


def tables(image):
    """All of an image but its code and its locks."""
    functions = [(body.parameters, body.registers, body.end - body.start) for body in image.bodies]
    return image.version, image.classes, image.global_classes, functions, image.start, len(image.lists)


def needed(analysis, image, number):
    """What the section needs, but for what another of it absorbs, in order."""
    section = analysis.lowered.sections[number]
    locks = analysis.needed["section", number].get(section.acq + 1, set())
    return sorted(analysis.reduced(section.function, locks), key=lambda lock: lock.order())


def read(analysis, image, number):
    """What the expressions of the section's list read, in the order in which they are evaluated."""
    for lock in image.lists[number]:
        if isinstance(lock, Expr):
            for at, step in enumerate(lock.path):
                if step == "*":
                    yield Expr(lock.on, lock.number, lock.path[:at], "read")


def stands_over(analysis, function, over, lock):
    """Whether the first lock covers all that the second one does."""
    if (over.effect, lock.effect) == ("read", "write"):
        return False
    if isinstance(over, Root):
        return True
    if isinstance(over, Class):
        return over.number == (analysis.class_of(function, lock) if isinstance(lock, Expr) else lock.number)
    return isinstance(lock, Expr) and (over.on, over.number, over.path) == (lock.on, lock.number, lock.path)
