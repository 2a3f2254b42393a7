"""One check of a crate with other texts in it, over what was built of it and of the crates below; and what the prover said."""
import functools
import os
import pathlib
import re
import shutil
import subprocess
import tempfile

ROOT = pathlib.Path(__file__).resolve().parent.parent
OPEN = re.compile(r"^fn (\S+): (?:not proved|no proof: (?!it calls))")
# neither proved nor refused: a limit of the prover ended the check of the function, or what it calls is not proved, so it was not looked at
UNTOLD = re.compile(r"^fn (\S+): (?:could not tell|no proof: it calls)")
# an error of a proof that is written: its goal, and what is wrong
GOAL = re.compile(r"^\./proofs/(\S+)/(?:Answers|Invariants|Proof)\.antt:\d+:\d+: error: `([\w-]+)`")
NAMES = re.compile(r"(note: )?(\./)?proofs/.*(has no field|is not in scope|has no `|was not admitted)")
# what the prover says where one of its own limits ends a check
LIMIT = re.compile(r"antt ran out of (stack|the (steps|memory) that the check of one declaration may (take|use))|(outgrew the memory limit|stopped at the step limit) \(")
UNREAD = re.compile(r"\berror\[[\w-]+\]|^(?:\./)?(?:src|specs)/\S+:\d+:\d+: error")


class Told:
    """What a check came to: which functions are open, and which of their goals."""

    def __init__(self, status, text):
        self.lines = text.rstrip("\n").split("\n")
        last = self.lines[-1]
        self.is_proved = status == 0 and last.startswith("logic=proved") or "logic=partial" in last
        self.open = {found[1]: re.findall(r"`([\w-]+)`", line.split("did not prove", 1)[-1]) if "did not prove" in line else []
                     for line in self.lines for found in [OPEN.match(line)] if found}
        self.untold = {found[1] for line in self.lines for found in [UNTOLD.match(line)] if found}
        for line in self.lines:
            found = GOAL.match(line)
            for name in self.open:
                if found and name.split("::")[1:] == found[1].split("/") and found[2] not in self.open[name]:
                    self.open[name].append(found[2])
        bad = [it for it in self.lines if UNREAD.search(it)]
        # (a limit ends the check of the function that it is met in, and of nothing before it)
        self.is_at_limit = status == 3 and bool(LIMIT.search(text))
        self.is_verdict = (status in (0, 1) or self.is_at_limit) and not bad
        self.reason = f"no verdict: {(bad or self.lines)[0][:200]}"

    def functions(self):
        return [line.split()[1].rstrip(":") for line in self.lines if line.startswith("fn ")]

    def named(self, function):
        """The functions that the prover calls so, or by a name that ends so."""
        return [it for it in self.functions() if it == function or it.endswith("::" + function)]

    def is_untold(self, function):
        return any(it in self.untold for it in self.named(function))

    def is_open(self, function):
        return any(it in self.open for it in self.named(function))

    def goals(self, function):
        return [goal for it in self.named(function) for goal in self.open.get(it, [])]

    @property
    def is_for_names(self):
        """Whether all that is wrong is that a proof names what is gone."""
        errors = [it for it in self.lines if re.match(r"\S+:\d+:\d+: error", it)]
        return bool(errors) and all(NAMES.match(it) for it in errors)


@functools.cache
def uses():
    """The libraries that each crate stands on, by crates.txt, and whether it is a static library."""
    found = {}
    for line in (ROOT / "crates.txt").read_text().splitlines():
        name, mark, rest = line.partition(":")
        if mark and not line.startswith("#"):
            found[name.split()[0]] = (rest.split(), "staticlib" in name.split())
    return found


def below(name):
    found = []
    for low in uses()[name][0]:
        if low in uses():
            found += [it for it in [*below(low), low] if it not in found]
    return found


@functools.cache
def kit():
    return pathlib.Path(os.path.realpath(shutil.which("rt"))).parent.parent


@functools.cache
def words(name):
    """The words of the prover for a crate of this name."""
    lows, is_static = uses()[name]
    given = ["--crate-name", name, "src/main.rt" if (ROOT / "crates" / name / "src/main.rt").exists() else "src/lib.rt"]
    for low in ["std", *lows]:
        own = ROOT / "crates" / low / "out/rlib" / f"{low}.rlib"
        given += ["--extern", f"{low}={own if low in uses() else kit() / 'rlibs' / (low + '.rlib')}"]
    given += ["-L", f"dependency={kit() / 'rlibs'}"]
    for low in below(name):
        given += ["-L", f"dependency={ROOT / 'crates' / low / 'out/rlib'}"]
    given += ["--antt-project", kit() / "rattle/logic/antt-project.json", "--logic-built", kit() / "logic_built", "--jobs", "1", "--links", f"{name}="]
    return [*given, *(["--crate-type", "staticlib"] if is_static else [])]


def link_or_copy(one, other):
    # (a check replaces such files, and changes none)
    if one.endswith(".oantt"):
        return os.link(one, other)
    return shutil.copy2(one, other)


def check(crate, texts, dropped, only):
    """Checks the crate with these texts in place of its own and without the files that are dropped: the functions named, or all."""
    with tempfile.TemporaryDirectory(prefix="asl-edits-") as room:
        room = pathlib.Path(room)
        for part in ("src", "specs", "proofs"):
            if (crate / part).is_dir():
                shutil.copytree(crate / part, room / part)
        for path, text in texts.items():
            (room / path).write_text(text)
        for path in dropped:
            (room / path).unlink(missing_ok=True)
        if (crate / "out/incremental").is_dir():
            shutil.copytree(crate / "out/incremental", room / "kept", symlinks=True, copy_function=link_or_copy)
        else:
            (room / "kept").mkdir()
        asked = [word for name in only for word in ("--only", name)]
        ran = subprocess.run([kit() / "bin/rattle", "check", *words(crate.name), "--incremental", room / "kept", *asked], cwd=room,
                             stdin=subprocess.DEVNULL, stdout=subprocess.PIPE, stderr=subprocess.STDOUT, text=True, errors="replace")
        return Told(ran.returncode, ran.stdout)
