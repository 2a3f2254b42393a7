"""The code of a source text, by docs/SOURCE.md: its grammar, and the templates that statements become.

Only good texts are read; what the program refuses is not judged here."""
import re
from dataclasses import dataclass

TOKEN = re.compile(r"[A-Za-z_]\w*|\d+|==|[(){}\[\],;=+\-<&*]")
OPERATORS = {"+": "add", "-": "sub", "<": "lt", "==": "eq"}


@dataclass
class Statement:
    """A statement by the name of its instruction, or `if`, `while`, `atomic`; `target` is the local that it assigns."""

    kind: str
    target: str = ""
    names: tuple = ()
    number: int = 0
    callee: str = ""
    bodies: tuple = ()


@dataclass
class Function:
    name: str
    parameters: list
    body: list
    result: str


@dataclass
class Instruction:
    """An instruction with the fields that it has in an image: registers or a size in a, b and c, all else in d."""

    op: str
    a: int = 0
    b: int = 0
    c: int = 0
    d: int = 0


@dataclass
class Body:
    """A function's part of the code: its first pc, the pc after its `ret`, and the register that it returns."""

    parameters: int
    registers: int
    start: int
    end: int
    result: int

    def pcs(self):
        return range(self.start, self.end)


@dataclass
class Section:
    """The pcs of a section's `acq` and `rel`, and its function."""

    acq: int
    rel: int
    function: int

    def pcs(self):
        return range(self.acq + 1, self.rel)


class Parser:
    def __init__(self, text):
        self.tokens = TOKEN.findall(text)
        self.at = 0

    def sees(self, token):
        return self.at < len(self.tokens) and self.tokens[self.at] == token

    def take(self):
        self.at += 1
        return self.tokens[self.at - 1]

    def expect(self, token):
        found = self.take()
        if found != token:
            raise ValueError(f"{token} expected, not {found}")

    def takes(self, token):
        """Whether the token stands here; if so, it has been passed then."""
        is_there = self.sees(token)
        self.at += is_there
        return is_there

    def names(self):
        """Names between parentheses."""
        self.expect("(")
        names = []
        while not self.takes(")"):
            names.append(self.take())
            self.takes(",")
        return names

    def program(self):
        """The names of the globals, and the functions."""
        names, functions = [], []
        while self.at < len(self.tokens):
            if self.takes("global"):
                names.append(self.take())
                self.expect(";")
            else:
                functions.append(self.function())
        return names, functions

    def function(self):
        self.expect("fn")
        name, parameters, body = self.take(), self.names(), []
        self.expect("{")
        while not self.takes("return"):
            body.append(self.statement())
        result = self.take()
        self.expect(";")
        self.expect("}")
        return Function(name, parameters, body, result)

    def block(self):
        self.expect("{")
        body = []
        while not self.takes("}"):
            body.append(self.statement())
        return body

    def statement(self):
        if self.takes("if"):
            condition, yes = self.take(), self.block()
            no = self.block() if self.takes("else") else []
            return Statement("if", names=(condition,), bodies=(yes, no))
        if self.takes("while"):
            return Statement("while", names=(self.take(),), bodies=(self.block(),))
        if self.takes("atomic"):
            return Statement("atomic", bodies=(self.block(),))
        simple = self.simple()
        self.expect(";")
        return simple

    def simple(self):
        """A statement without blocks, up to its semicolon."""
        if self.takes("out"):
            return Statement("out", names=(self.take(),))
        if self.takes("*"):
            cell = self.take()
            self.expect("=")
            return Statement("store", names=(cell, self.take()))
        target = self.take()
        self.expect("=")
        return self.right_side(target)

    def right_side(self, target):
        if self.takes("-"):
            return Statement("int", target, number=-int(self.take()))
        if self.takes("null"):
            return Statement("null", target)
        if self.takes("new"):
            return Statement("new", target, number=int(self.take()))
        if self.takes("*"):
            return Statement("load", target, (self.take(),))
        if self.takes("&"):
            return self.address(target)
        first = self.take()
        if first.isdigit():
            return Statement("int", target, number=int(first))
        if self.sees("("):
            return Statement("call", target, tuple(self.names()), callee=first)
        if self.sees(";"):
            return Statement("mov", target, (first,))
        return Statement(OPERATORS[self.take()], target, (first, self.take()))

    def address(self, target):
        name = self.take()
        if not self.takes("["):
            return Statement("glob", target, (name,))
        index = int(self.take())
        self.expect("]")
        return Statement("field", target, (name,), index)


class Lowered:
    """The code of a text. A `new` has the number of its site in d, an `acq` that of its section."""

    def __init__(self, text):
        names, functions = Parser(text).program()
        self.globals = {name: number for number, name in enumerate(names)}
        self.functions = {function.name: number for number, function in enumerate(functions)}
        self.code, self.sections, self.bodies, self.sites = [], [], [], 0
        for number, function in enumerate(functions):
            self.lower(number, function)
        self.main = self.functions["main"]

    def lower(self, number, function):
        self.number = number
        self.registers = {name: register for register, name in enumerate(function.parameters)}
        most = self.name_locals(function.body)
        self.first_argument = len(self.registers)
        start = len(self.code)
        self.block(function.body)
        result = self.registers[function.result]
        self.emit("ret", a=result)
        registers = self.first_argument + most
        self.bodies.append(Body(len(function.parameters), registers, start, len(self.code), result))

    def name_locals(self, body):
        """Gives each local its register, at its first assignment. Answers the most arguments of a call."""
        most = 0
        for one in body:
            if one.target:
                self.registers.setdefault(one.target, len(self.registers))
            if one.kind == "call":
                most = max(most, len(one.names))
            for inner in one.bodies:
                most = max(most, self.name_locals(inner))
        return most

    def emit(self, op, **fields):
        self.code.append(Instruction(op, **fields))
        return self.code[-1]

    def block(self, body):
        for one in body:
            getattr(self, f"lower_{one.kind}", self.lower_plain)(one)

    def lower_plain(self, one):
        """A statement whose instruction names the registers of its target and of its names, in this order."""
        registers = [self.registers[name] for name in ([one.target] if one.target else []) + list(one.names)]
        self.emit(one.kind, **dict(zip("abc", registers)), d=one.number)

    def lower_glob(self, one):
        self.emit("glob", a=self.registers[one.target], d=self.globals[one.names[0]])

    def lower_new(self, one):
        self.emit("new", a=self.registers[one.target], b=one.number, d=self.sites)
        self.sites += 1

    def lower_call(self, one):
        for at, name in enumerate(one.names):
            self.emit("mov", a=self.first_argument + at, b=self.registers[name])
        first = self.first_argument if one.names else 0
        self.emit("call", a=self.registers[one.target], b=first, d=self.functions[one.callee])

    def lower_if(self, one):
        yes, no = one.bodies
        skip = self.emit("jz", a=self.registers[one.names[0]])
        self.block(yes)
        if no:
            skip, over = self.emit("jmp"), skip
            over.d = len(self.code)
            self.block(no)
        skip.d = len(self.code)

    def lower_while(self, one):
        start = len(self.code)
        leave = self.emit("jz", a=self.registers[one.names[0]])
        self.block(one.bodies[0])
        self.emit("jmp", d=start)
        leave.d = len(self.code)

    def lower_atomic(self, one):
        section = Section(len(self.code), 0, self.number)
        self.emit("acq", d=len(self.sections))
        self.sections.append(section)
        self.block(one.bodies[0])
        section.rel = len(self.code)
        self.emit("rel")
