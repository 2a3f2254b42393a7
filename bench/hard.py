"""Sources that a few hundred bytes make hard: each is a product of factors, such as sections, calls and locks. A factor is a number, so
that bench/limits can double one while the others stay."""
import string

LETTERS = string.ascii_letters
# words of the language, and names that a source here has for something else
TAKEN = {"fn", "if", "new", "out", "main", "t", "p", "q", "x", "y", "z"}


def name(number):
    """Short names that differ: a, b, .., Z, aa, ab, .."""
    text = ""
    number += 1
    while number:
        number, digit = divmod(number - 1, 52)
        text = LETTERS[digit] + text
    return text + "_" if text in TAKEN else text


def in_sections(count, body):
    """A body in so many sections that lie in one another."""
    return "atomic{" * count + body + "}" * count


def one_of(target, places):
    """Statements after which the target has one of these values, by tests that no analysis decides."""
    return f"{target}={places[0]};" + "".join("if t{%s=%s;}" % (target, it) for it in places[1:])


def fan(first, second):
    """A load of so many globals' so many cells each."""
    return one_of("p", [f"&g{n}" for n in range(first)]) + one_of("q", [f"&p[{n}]" for n in range(second)]) + "x=*q;"


def globals_of(count):
    return "".join(f"global g{n};" for n in range(count))


def calls(calls, sections, first, second):
    """Sections in one another that call one body so often, which needs first times second locks."""
    body = globals_of(first) + "fn f(){t=0;" + fan(first, second) + "return t;}"
    return body + "fn main(t){" + in_sections(sections, "x=f();" * calls) + "return t;}"


def callees(functions, registers, sections, first, second):
    """Sections in one another that call each of so many functions into each of so many registers, before loads that need first times
    second locks."""
    names = [name(n) for n in range(functions)]
    called = "".join(f"r{r}={it}();" for r in range(registers) for it in names)
    loads = one_of("q", [f"&p[{n}]" for n in range(first)]) + "y=*q;" + one_of("z", [f"&y[{n}]" for n in range(second)]) + "x=*z;"
    bodies = "".join("fn %s(){x=0;return x;}" % it for it in names)
    return bodies + "fn main(t){p=new 255;atomic{*p=p;}" + in_sections(sections, called + loads) + "return t;}"


def steps(copies, loads, sections):
    """Sections in one another, each with so many loads of one cell after so many copies of its address: each load needs the lock by way
    of all copies."""
    body = "b=a;a=b;" * (copies // 2) + "x=*a;" * loads
    return "global g;fn main(t){a=&g;" + in_sections(sections, body) + "return t;}"


def branches(branches, sections, loads):
    """Sections in one another, each with so many branches before loads of so many globals."""
    body = "if t{}" * branches + "".join(f"p=&g{n};x=*p;" for n in range(loads))
    return globals_of(loads) + "fn main(t){" + in_sections(sections, body) + "return t;}"


def members(members, sections):
    """So many sections that lock one class of so many members."""
    made = "n=new 1;" * members
    return "global g;fn main(t){p=&g;" + made + "atomic{*p=n;}atomic{c=*p;*c=c;}" + "atomic{while t{n=*n;}}" * sections + "return t;}"


def order(sections, first, second):
    """Sections that call one body, whose first times second locks differ only behind the fifth operation of their paths."""
    front = "fn f(){t=0;p=&g;a=*p;b=&a[0];c=*b;d=&c[0];e=*d;"
    fanned = one_of("q", [f"&e[{n}]" for n in reversed(range(first))]) + "y=*q;" + one_of("z", [f"&y[{n}]" for n in reversed(range(second))])
    sought = "fn main(t){p=&g;n=new 255;atomic{*p=n;*n=n;}" + "atomic{x=f();}" * sections + "return t;}"
    return "global g;" + front + fanned + "x=*z;return t;}" + sought


def crowded(copies, sections, first, second):
    """A section that needs too many locks, before sections in one another, each with so many copies before loads that need first times
    second locks: what is told of the first one is found by leaving parts of it out."""
    body = "a=t;" * copies + fan(first, second)
    return globals_of(66) + "fn main(t){a=t;atomic{" + fan(66, 64) + "}" + in_sections(sections, body) + "return t;}"


def flat(statements, sections, first, second):
    """Sections in one another, each with so many copies before loads that need first times second locks."""
    return globals_of(first) + "fn main(t){a=t;" + in_sections(sections, "a=t;" * statements + fan(first, second)) + "return t;}"


def shared(sections, first, second):
    """Sections one after the other that call one body, which needs first times second locks."""
    body = globals_of(first) + "fn f(){t=0;" + fan(first, second) + "return t;}"
    return body + "fn main(t){" + "atomic{x=f();}" * sections + "return t;}"


def relay(functions, copies):
    """Functions that pass a pointer on from register to register by copies of which each comes before the one that it needs, half of them the
    one way round and half the other, and so many copies of a register that points nowhere."""
    last = 57
    first_half = "".join(f"w{n + 1}=w{n};" for n in range(0, last, 2))
    second_half = "".join(f"w{n + 1}=w{n};" for n in range(1, last, 2))
    idle = "a=b;" * (copies // functions)
    bodies = ""
    for number in range(functions):
        onward = f"r=f{number + 1}(w{last});" if number + 1 < functions else ""
        bodies += f"fn f{number}(w0){{a=1;b=1;{first_half}{idle}{second_half}{onward}return b;}}"
    return "global g;" + bodies + "fn main(t){p=&g;r=f0(p);return t;}"


def ways(loads, sections):
    """So many rounds of three loads that follow one another from a parameter, in a body that so many sections call."""
    body = "".join(f"f=&v[{n % 256}];x=*f;f=&x[{n // 256}];y=*f;f=&y[0];z=*f;" for n in range(loads))
    return "global g;fn f(v){" + body + "return v;}fn main(t){p=&g;" + "atomic{r=f(p);}" * sections + "return t;}"


def stars(stores, sections, first, second):
    """Sections in one another, each with so many stores to an object that no list has, before loads by pointers in the cells of another, which need
    first times second locks."""
    loads = one_of("p", [f"&o[{n}]" for n in range(first)]) + "y=*p;" + one_of("z", [f"&y[{n}]" for n in range(second)]) + "x=*z;"
    return "fn main(t){o=new 255;atomic{*o=o;}s=new 1;" + in_sections(sections, "*s=t;" * stores + loads) + "return t;}"


def ring(registers, copies, sections, first, second):
    """Sections in one another round a loop in which a lock goes one register a turn, past so many copies, and loads behind it that need
    first times second locks."""
    names = [f"r{n}" for n in range(registers)]
    moves = "".join(f"{names[n]}={names[n + 1]};" for n in range(registers - 1))
    loads = one_of("q", [f"&p[{n}]" for n in range(first)]) + "y=*q;" + one_of("z", [f"&y[{n}]" for n in range(second)]) + "x=*z;"
    body = "while t{" + "a=t;" * copies + moves + "}p=" + names[0] + ";" + loads
    begun = "fn main(t){p=new 255;atomic{*p=p;}a=t;" + "".join(f"{it}=p;" for it in names)
    return begun + in_sections(sections, body) + "return t;}"


def wheels(outer, inner, lengths, copies, sections):
    """Sections in one another round a loop in a loop: each turn of the outer one moves a lock one register on and gives it to the inner one by
    another path, which moves that one register a turn; after all registers of the outer one the path is longer. So the inner one, with so many
    copies, makes outer times inner times lengths turns, each with one lock more."""
    os_ = [f"o{n}" for n in range(outer)]
    is_ = [f"i{n}" for n in range(inner)]
    given = "".join("if t{%s=&i0[%d];}" % (os_[n], n) for n in range(outer))
    longer = f"if t{{{os_[-1]}=&o0[255];}}" if lengths > 1 else ""
    turned = "".join(f"{os_[n]}={os_[n + 1]};" for n in range(outer - 1))
    moved = "".join(f"{is_[n]}={is_[n + 1]};" for n in range(inner - 1))
    body = "while t{" + turned + longer + "while t{" + "a=t;" * copies + moved + "}" + given + "}x=*o0;"
    begun = "fn main(t){p=new 255;a=t;" + "".join(f"{it}=p;" for it in os_ + is_)
    return begun + in_sections(sections, body) + "return t;}"


def clique(functions, callees):
    """Functions that call so many of the others, each with a global of its own, and stores of its own to four classes."""
    text = globals_of(functions)
    for n in range(functions):
        calls = "".join(f"x={name((n * 7 + 1 + m) % functions)}();" for m in range(callees))
        news = "".join(f"{r}=new 1;" for r in "bcd")
        stores = "".join(f"*{r}=x;" for r in "bcd")
        text += f"fn {name(n)}(){{p=&g{n};x=0;{news}{calls}*p=x;{stores}return x;}}"
    return text + f"fn main(t){{atomic{{x={name(0)}();}}return t;}}"


def tired(sections, copies, first, second):
    """Sections that call one body, in which each of first times second locks, at most 256, changes its register so many times: what is found in the
    body is more than is kept, so the rest is sought anew for each section."""
    loads = one_of("q", [f"&a[{n}]" for n in range(first)]) + "y=*q;" + one_of("z", [f"&y[{n}]" for n in range(second)]) + "x=*z;"
    body = "fn f(a){t=0;" + "b=a;a=b;" * (copies // 2) + loads + "return t;}"
    return body + "fn main(t){p=new 255;atomic{*p=p;}" + "atomic{x=f(p);}" * sections + "return t;}"


def sharp(sections, first, second):
    """A section that needs too many locks, before sections one after the other that call one body, which needs first times second locks:
    what is told of the first one is found by inferring for all of them again and again."""
    body = globals_of(66) + "fn f(){t=0;" + fan(first, second) + "return t;}"
    return body + "fn main(t){atomic{" + fan(66, 64) + "}" + "atomic{x=f();}" * sections + "return t;}"


def made(news, sections, first, second):
    """Sections in one another, each with so many objects of its own before loads that need first times second locks, all of which are needed after
    each of the objects is made."""
    return globals_of(first) + "fn main(t){" + in_sections(sections, "n=new 1;" * news + fan(first, second)) + "return t;}"


def blanks(sections, first, second, width):
    """Sections that call one body with first times second locks, at most 256, by one load that has so many blanks in it: each telling of the
    statement goes through them."""
    body = globals_of(first) + "fn f(){t=0;" + fan(first, second)[:-1].replace("x=*q", "x=*" + " " * width + "q") + ";return t;}"
    return body + "fn main(t){" + "atomic{x=f();}" * sections + "return t;}"


def broad(sections, functions, cells):
    """Sections that call one body, which calls so many functions with a global and so many locks each: the list has a lock on each of their
    classes, and what each of these covers is looked for among all."""
    bodies, calls = "", ""
    for n in range(functions):
        bodies += f"fn {name(n)}(){{t=0;p=&g{n};" + one_of("q", [f"&p[{c}]" for c in range(cells)]) + "x=*q;return t;}"
        calls += f"x={name(n)}();"
    return globals_of(functions) + bodies + "fn all(){" + calls + "return x;}" + "fn main(t){" + "atomic{x=all();}" * sections + "return t;}"


def classy(sections, classes, filling):
    """Sections that need two loads of so many classes each by a path that is too long (with k = 0), in a program of so many statements more:
    who is in a class is looked for in the whole code for each lock of each list."""
    bodies, calls = "", ""
    for n in range(classes):
        bodies += f"fn f{n}(){{p=&g{n};q=&p[1];x=*q;return x;}}"
        calls += f"x=f{n}();"
    idle = "fn idle(t){" + "a=t;" * filling + "return t;}"
    return globals_of(classes) + bodies + "fn all(){" + calls + "return x;}" + idle + "fn main(t){" + "atomic{x=all();}" * sections + "return t;}"


def copied_on(members):
    """So many sites in a row of registers, each of which is copied from the one before: the chain from the first to the last has as many
    steps, and those to all of them half as many squared."""
    rows, text, left = 60, "", members
    functions = (members + rows - 1) // rows
    for n in range(functions):
        here = min(rows, left)
        left -= here
        lines = "".join(f"{name(i + 1)}={name(i)};{name(i + 1)}=new 1;" for i in range(here))
        onward = f"z=f{n + 1}({name(here)});" if n + 1 < functions else ""
        text += f"fn f{n}(a){{{lines}{onward}return a;}}"
    return text + "fn main(t){p=new 1;p=f0(p);return t;}"


def sorted_out(functions, classes, members, filling):
    """Functions with so many classes each, of so many new objects each, and so many statements more: for each object beside the first of its
    class a chain is looked for that joins the two, in a long program."""
    text = ""
    for f in range(functions):
        made = "".join(f"{name(c)}=new 1;" * members + f"atomic{{*{name(c)}={name(c)};}}" for c in range(classes))
        text += f"fn f{f}(){{z=1;{made}{'z=1;' * filling}return z;}}"
    return text + "fn main(t){" + "".join(f"r=f{f}();" for f in range(functions)) + "return t;}"
