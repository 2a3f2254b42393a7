"""Wrong bodies as edits: what a file of must-fail/ says, which functions it touches, and which goal of the prover is to refuse it.

An edit is a text of lines:
    refused-by: FUNCTION CLAUSE    the function (as `Bits::add_all`, with so many of its modules as tell it apart) and the clause that it
                                   breaks: a clause's name, `ensures` for one without, or a goal's name (an invariant's, as
                                   loop-bit-preserved; a safety condition's)
    file: PATH, old: TEXT, new: TEXT   what to replace; TEXT stands once in the file. Pairs follow one another."""
import pathlib
import re
from dataclasses import dataclass, field

HEAD = re.compile(r"^( *)(?:pub(?:\([a-z ]+\))? )?(?:const |unsafe |extern \"C\" |ghost )*fn (\w+)")
IMPL = re.compile(r"^impl(?:<.*?>)? (?:([\w:]+)(<[^{]*?>)? for )?(\w+)")
TRAIT = re.compile(r"^(?:pub )?(?:unsafe )?trait (\w+)")


class BadEdit(Exception):
    """An edit that cannot be applied, or says less than it must."""


@dataclass
class Edit:
    path: pathlib.Path
    pairs: list  # of (file, old, new)
    refused_by: list = field(default_factory=list)  # of (function, clause)

    @property
    def name(self):
        return f"{self.path.parents[2].name}/{self.path.stem}"

    @property
    def is_always(self):
        return self.path.parent.name == "always"

    @property
    def is_of_code(self):
        """Whether it changes bodies alone: neither definitions nor proofs, nor a law, which is a contract."""
        return all(file.startswith("src/") and not file.endswith("laws.rt") for file, _, _ in self.pairs) and "asl_theorems" not in self.name

    def applied(self, crate, texts=None):
        """The texts of the crate's files with the edit in them, by name, over those that are given."""
        texts = dict(texts or {})
        for file, old, new in self.pairs:
            text = texts[file] if file in texts else (crate / file).read_text()
            if text.count(old) != 1:
                raise BadEdit(f"{self.name}: an old text stands in {file} {text.count(old)} times")
            texts[file] = text.replace(old, new)
        return texts

    def functions(self, crate):
        """The functions that it touches, by the ends of their names: `module::function` or `Type::method`."""
        found, texts = [], {}
        for file, old, new in self.pairs:
            text = texts.get(file) or (crate / file).read_text()
            if text.count(old) != 1:
                raise BadEdit(f"{self.name}: an old text stands in {file} {text.count(old)} times")
            name = function_at(file, text, text.index(old) + len(old) - len(old.lstrip()))
            texts[file] = text.replace(old, new)
            if name and name not in found:
                found.append(name)
        return found


def read(path):
    pairs, file, old, refused_by = [], None, None, []
    for line in path.read_text().split("\n"):
        if line.startswith("file: "):
            file = line[6:].strip()
        elif line.startswith("old: "):
            old = line[5:]
        elif line.startswith("new:"):
            pairs.append((file, old, line[4:].removeprefix(" ")))
        elif line.startswith("refused-by: "):
            function, _, clause = line[12:].strip().partition(" ")
            refused_by.append((function, clause or "ensures"))
    if not pairs or any(file is None or old is None for file, old, _ in pairs):
        raise BadEdit(f"{path}: no file, or a new text before an old one")
    return Edit(path, pairs, refused_by)


def all_of(crate):
    """The crate's edits, those that are always tried first."""
    folder = crate / "must-fail"
    return [read(path) for path in [*sorted(folder.glob("always/*.md")), *sorted(folder.glob("on-change/*.md"))]]


def function_at(file, text, place):
    """The end of the name of the function around a place of a source, or None outside of functions. A method goes by its type, which
    may be of another module, and any other function by its module."""
    lines = text[:place].split("\n")
    indent = None
    name, kind = None, None
    for line in reversed(lines):
        head = HEAD.match(line)
        if head and name is None:
            name, indent = head[2], len(head[1])
            if indent == 0:
                break
        elif name is not None and line and not line[0].isspace():
            found, trait = IMPL.match(line), TRAIT.match(line)
            if found:
                of = (found[1] or "").rsplit("::", 1)[-1]
                kind = found[3] + of + "".join(re.findall(r"\w+", found[2] or ""))
            elif trait:
                kind = trait[1]
            break
        elif name is None and line.startswith("}"):
            return None
    if name is None:
        return None
    module = pathlib.PurePath(file).stem
    return f"{kind}::{name}" if kind else name if module in ("lib", "main") else f"{module}::{name}"


def answers_of(crate, function):
    """Where the written answers of the function stand in its crate."""
    found = (crate / "proofs").glob("**/" + function.replace("::", "/") + "/Answers.antt")
    return [path.relative_to(crate) for path in found]
