"""The bytes of images, journals and run files, read by a program of its own from docs/FORMATS.md, docs/JOURNAL.md and
docs/FORMATS.md. `judge_*` answers the name of the first refusal, or None where the bytes are good."""


class Refusal(Exception):
    """The first thing that is wrong, as the program names it."""


class Reader:
    def __init__(self, data):
        self.data = data
        self.at = 0

    def number(self, size, is_good=lambda value: True):
        """A field of so many bytes, read whole and then judged."""
        if len(self.data) - self.at < size:
            raise Refusal(f"Truncated({len(self.data)})")
        value = int.from_bytes(self.data[self.at : self.at + size], "big")
        if not is_good(value):
            raise Refusal(f"BadField({self.at})")
        self.at += size
        return value

    def head(self, letters):
        if len(self.data) < 4:
            raise Refusal(f"Truncated({len(self.data)})")
        if self.data[:4] != letters:
            raise Refusal("Magic")
        self.at = 4
        version = self.number(2)
        if version not in LIMITS:
            raise Refusal("Version")
        return version

    def end(self):
        if self.at < len(self.data):
            raise Refusal(f"Trailing({self.at})")


# version: the most threads, and the most locks of a list
LIMITS = {1: (64, 64), 2: (128, 256)}

# op: which of a, b, c name registers; what d is; name
REGISTERS = {1: "a", 2: "a", 3: "ab", 4: "abc", 5: "abc", 6: "abc", 7: "abc", 8: "a", 9: "ab", 10: "ab", 11: "ab",
             12: "a", 13: "", 14: "a", 15: "a", 16: "a", 17: "a", 18: "", 19: ""}
USED = {**REGISTERS, 12: "ab", 15: "ab"}
SHORT_D = (8, 12, 13, 14, 15, 18)
GLOB, FIELD, NEW, JMP, JZ, CALL, RET, ACQ = 8, 9, 12, 13, 14, 15, 16, 18


def instruction(reader):
    start = reader.at
    if len(reader.data) - start < 8:
        raise Refusal(f"Truncated({len(reader.data)})")
    op = reader.number(1, lambda value: value in REGISTERS)
    fields = {name: reader.number(1, lambda value: name in USED[op] or value == 0) for name in "abc"}
    d = reader.number(4, lambda value: op == 1 or (op in SHORT_D and value <= 65535) or (op == FIELD and value <= 255)
                      or value == 0)
    return op, fields, d


def path(reader):
    return [reader.number(1, lambda value: value <= 1) and reader.number(1)
            for _ in range(reader.number(1, lambda value: value <= 8))]


def lock(reader):
    kind = reader.number(1, lambda value: value <= 3)
    reader.number(1, lambda value: value <= 1)
    base = None
    if kind:
        base = reader.number(1 if kind == 2 else 2)
    if kind >= 2:
        path(reader)
    return kind, base


def image(data):
    reader = Reader(data)
    version = reader.head(b"ASLM")
    classes = reader.number(2)
    global_classes = [reader.number(2) for _ in range(reader.number(2))]
    functions = [(reader.number(1), reader.number(1), reader.number(2)) for _ in range(reader.number(2))]
    entry = reader.number(2)
    code = [instruction(reader) for _ in range(reader.number(2))]
    lists = [[lock(reader) for _ in range(reader.number(2))] for _ in range(reader.number(2))]
    reader.end()
    return version, classes, global_classes, functions, entry, code, lists


def rules(version, classes, global_classes, functions, entry, code, lists):
    """The first rule that the image breaks."""
    if (classes > 1024 or len(global_classes) > 1024 or len(functions) > 256 or len(lists) > 1024
            or any(len(locks) > LIMITS[version][1] for locks in lists) or any(p > 4 or r > 64 for p, r, _ in functions)):
        return "Limit"
    if any(c >= classes for c in global_classes):
        return "Table"
    for locks in lists:
        for kind, base in locks:
            if (kind == 1 and base >= classes) or (kind == 3 and base >= len(global_classes)):
                return "Table"
    if entry >= len(functions) or functions[entry][0] != 1:
        return "NoEntry"
    if any(n == 0 or p > r for p, r, n in functions) or sum(n for _, _, n in functions) != len(code):
        return "FunctionRange"
    owners = []
    first = 0
    for parameters, registers, length in functions:
        owners += [(first, first + length, registers)] * length
        first += length
    for start, end, _ in dict.fromkeys(owners):
        if code[end - 1][0] not in (RET, JMP):
            return "FallsOut"
    places = list(enumerate(zip(code, owners)))
    for pc, ((op, _, d), (start, end, _)) in places:
        if (op in (JMP, JZ) and not start <= d < end) or (op == CALL and d >= len(functions)):
            return f"Target({pc})"
    for pc, ((op, fields, d), (_, _, registers)) in places:
        if any(fields[name] >= registers for name in REGISTERS[op]):
            return f"Register({pc})"
        if op == CALL and fields["b"] + functions[d][0] > registers:
            return f"Register({pc})"
    for pc, ((op, fields, d), _) in places:
        if ((op == GLOB and d >= len(global_classes)) or (op == NEW and (d >= classes or fields["b"] == 0))
                or (op == ACQ and d >= len(lists))):
            return f"Operand({pc})"
    for pc, ((op, _, d), (_, _, registers)) in places:
        if op == ACQ and any(kind == 2 and base >= registers for kind, base in lists[d]):
            return f"ListBase({pc})"
    return None


def judge_image(data):
    try:
        broken = rules(*image(data))
    except Refusal as refusal:
        return str(refusal)
    return f"Verify({broken})" if broken else None


def value(reader):
    kind = reader.number(1, lambda number: number <= 2)
    if kind == 0:
        reader.number(4)
    if kind == 2:
        reader.number(2)
        reader.number(1)


def judge_journal(data):
    reader = Reader(data)
    try:
        version = reader.head(b"ASLJ")
        fewest = max((most for other, (most, _) in LIMITS.items() if other < version), default=0) + 1
        threads = reader.number(1, lambda number: fewest <= number <= LIMITS[version][0])
        for _ in range(reader.number(4, lambda number: number <= 16777216)):
            reader.number(1, lambda number: number < threads)
            reply = reader.number(1, lambda number: number <= 4)
            if reply == 1:
                value(reader)
            if reply == 4 and reader.number(1, lambda number: number <= 8) == 3:
                reader.number(2)
                reader.number(1)
                reader.number(1, lambda number: number <= 1)
        reader.end()
    except Refusal as refusal:
        return str(refusal)
    return None


def judge_run(data):
    """The first refusal of a run file; whether its journal is one of the program is not judged."""
    length = int.from_bytes(data[:4], "big")
    if len(data) < 4 or len(data) - 4 < length:
        return f"Truncated({len(data)})"
    fault = judge_image(data[4 : 4 + length])
    if fault:
        return f"Image({fault})"
    fault = judge_journal(data[4 + length :])
    return f"Journal({fault})" if fault else None


def judge_text(data):
    """The first refusal of what is not an assembly text: its first line that is not blank, which is no `version`, or the end."""
    lines = data.split(b"\n")
    if not lines[-1]:
        lines.pop()
    for number, line in enumerate(lines, 1):
        if line.strip(b" \t\r,"):
            return f"Line({number})"
    return f"Line({len(lines) + 1})"
