"""Random sources for native programs. Each ends but where a loop of its own does not; faults are wanted."""
import random

HELPERS = """fn put(q, v) { *q = v; return q; }
fn make(v) { e = new 2; f = &e[1]; *f = v; return e; }
fn down(n) { z = 0; one = 1; m = n; if n { m = n - one; m = down(m); m = m + one; } else { m = z; } return m; }
fn far(n) { m = far(n); return m; }
"""


class Drawing:
    def __init__(self, seed):
        self.draw = random.Random(seed)
        self.names = [f"g{number}" for number in range(self.draw.randint(1, 3))]
        self.numbers, self.places = ["n", "m", "t"], ["p", "q"]

    def number(self):
        return self.draw.choice([0, 1, 2, 7, 255, 65536, 2147483647, 1000000000])

    def outside(self):
        """A statement that accesses no cell."""
        a, b, c = (self.draw.choice(self.numbers[:2] if i == 0 else self.numbers) for i in range(3))
        p, q = self.draw.choice(self.places), self.draw.choice(self.places)
        choices = [f"{a} = {self.number()};", f"{a} = {b} + {c};", f"{a} = {b} - {c};", f"{a} = {b} < {c};", f"{a} = {b} == {c};", f"out {a};",
                   f"{p} = &{self.draw.choice(self.names)};", f"{p} = {q};", f"{a} = {p} == {q};", f"{p} = new {self.draw.randint(1, 3)};",
                   f"{a} = 5; {a} = down({a});"]
        rare = [f"{p} = &{q}[{self.draw.randint(0, 2)}];", f"{p} = null;", f"out {p};", f"{a} = {p} + {b};", f"{a} = far({b});", f"{a} = {p};"]
        return self.draw.choice(choices) if self.draw.random() < 0.97 else self.draw.choice(rare)

    def inside(self):
        a, b = self.draw.choice(self.numbers[:2]), self.draw.choice(self.numbers)
        p, q = self.draw.choice(self.places), self.draw.choice(self.places)
        choices = [f"*{p} = {b};", f"{a} = *{p};", f"*{p} = {q};", f"x = *{p}; if x {{ {p} = &{self.draw.choice(self.names)}; }}",
                   f"{p} = put({p}, {b});", f"x = make({q}); *{p} = x;", f"x = new 2; *x = {b}; *{p} = x; x = *x; out x;",
                   f"{p} = &{self.draw.choice(self.names)}; {a} = *{p};"]
        rare = [f"{p} = *{q};", f"{q} = *{p}; x = *{q};", f"x = *{p}; *x = {b};"]
        if self.draw.random() < 0.06:
            return self.draw.choice(rare)
        return self.draw.choice(choices) if self.draw.random() < 0.6 else self.outside()

    def some(self, depth, is_inside, most):
        return " ".join(self.statement(depth, is_inside) for _ in range(self.draw.randint(1, most)))

    def statement(self, depth, is_inside):
        roll = self.draw.random()
        if depth < 3 and roll < 0.12:
            return f"if {self.draw.choice(self.numbers + self.places)} {{ {self.some(depth + 1, is_inside, 3)} }} else {{ {self.some(depth + 1, is_inside, 2)} }}"
        if depth < 3 and roll < 0.18:
            return f"k{depth} = {self.draw.randint(1, 4)}; while k{depth} {{ {self.some(depth + 1, is_inside, 3)} k{depth} = k{depth} - one; }}"
        if depth < 3 and roll < (0.24 if is_inside else 0.45):
            return f"atomic {{ {self.some(depth + 1, True, 5)} }}"
        return self.inside() if is_inside else self.outside()


def any_program(seed):
    """Arithmetic, loops, calls, sections in each other, objects, and here and there a fault."""
    it = Drawing(seed)
    body = "\n  ".join(it.statement(0, False) for _ in range(it.draw.randint(4, 14)))
    head = "one = 1; n = 3; m = 4; p = &g0; q = &%s; x = 0;" % it.draw.choice(it.names)
    last = it.draw.choice(["n", "m", "p", "t"])
    return "".join(f"global {name};\n" for name in it.names) + HELPERS + f"fn main(t) {{\n  {head}\n  {body}\n  return {last};\n}}\n"


def deep(sections, variables):
    """A function that calls itself for ever, with so many sections and variables: some compilers give its frame a place for all of these in
    each section."""
    made = "".join(f"v{i} = {i}; " for i in range(variables))
    parts = "".join(f"atomic {{ *a = v{i % variables}; }} " for i in range(sections))
    return f"global g; fn f(n) {{ a = &g; {made}{parts}r = f(n); return r; }} fn main(t) {{ r = f(t); return r; }}\n"


def swaps(seed):
    """Sections that change the cells which the expressions of other sections read."""
    draw = random.Random(seed)
    count = draw.choice([2, 3])
    text = "".join(f"global g{i}; " for i in range(count)) + "fn main(t) { one = 1; two = 2; "
    text += "".join(f"p{i} = &g{i}; " for i in range(count)) + "first = t == one; "
    made = "".join(f"x = new 2; *x = {draw.choice(['one', 'two'])}; *p{i} = x; " for i in range(count))
    text += f"atomic {{ x = *p0; if x {{ }} else {{ {made} }} }} "
    for _ in range(draw.choice([2, 3])):
        a, b = draw.sample(range(count), 2)
        kind = draw.choice(["swap", "add", "add", "move", "replace", "link"])
        part = {"swap": f"x = *p{a}; y = *p{b}; *p{a} = y; *p{b} = x;",
                "add": f"x = *p{a}; v = *x; v = v + v; v = v + one; *x = v; out v;",
                "move": f"x = *p{a}; y = *p{b}; v = *x; *y = v; w = *x; w = w + two; *x = w;",
                "replace": f"x = *p{a}; v = *x; n = new 2; v = v + t; *n = v; *p{a} = n;",
                "link": f"x = *p{a}; y = *p{b}; f = &x[1]; *f = y; f = &y[1]; z = *f; if z {{ v = *z; v = v + one; *z = v; }}"}[kind]
        part = f"atomic {{ {part} }} "
        text += f"if first {{ {part} }} " if draw.random() < 0.3 else part
    return text + "return t; }\n"
