"""Tries the package over the shared library: each call, what it refuses, and that it says what the commands say."""
import dataclasses
import importlib.machinery
import importlib.util
import json
import pathlib
import random
import subprocess
import sys
import unittest

import asl

ROOT = pathlib.Path(__file__).resolve().parents[2]
COUNTER = (ROOT / "examples/counter.asl").read_text()
BANK = (ROOT / "examples/bank.asl").read_text()
SOURCES = sorted((ROOT / "examples").glob("*.asl"))


def command(words, source):
    """What the command prints, by the call that the library is."""
    status, output, errors = asl.call(words, source)
    assert (status, errors) == (0, ""), (words, status, errors)
    return output.decode()


class Compile(unittest.TestCase):
    def test_counter(self):
        program = asl.compile(COUNTER)
        self.assertEqual(len(program.sections), 1)
        section = program.sections[0]
        self.assertEqual((section.function, section.line, section.start, section.end), ("main", 5, 44, 110))
        self.assertEqual(COUNTER[section.start:section.end].split()[0], "atomic")
        self.assertEqual(section.locks, (asl.Lock("expr", "write", "expr r1 write", base="r1", name="p"),))
        self.assertTrue(section.writes)
        self.assertFalse(section.reads_cells)
        self.assertTrue(program.image.startswith(b"ASLM"))
        self.assertEqual(program.text, command(["compile", "--text"], COUNTER))

    def test_paths_and_classes(self):
        transfer = asl.compile(BANK).sections[1]
        self.assertEqual([lock.path for lock in transfer.locks], [(), ("*",), (), ("*",)])
        self.assertTrue(transfer.reads_cells)
        classes = [lock for lock in asl.compile(BANK, k=0).sections[1].locks if lock.kind == "class"]
        self.assertEqual([(lock.klass, lock.effect, lock.base, lock.path) for lock in classes], [(1, "write", None, ())])

    def test_every_example(self):
        for path in SOURCES:
            source = path.read_text()
            program = asl.compile(source)
            lines = [line for line in asl.map_lines(source) if line[0] == "section"]
            self.assertEqual([[str(s.start), str(s.end)] for s in program.sections], [words[3:] for words in lines])
            self.assertEqual(asl.check(source, program), len(program.sections))

    def test_bytes(self):
        self.assertEqual(asl.compile(COUNTER.encode()), asl.compile(COUNTER))


class Refusals(unittest.TestCase):
    def test_place(self):
        with self.assertRaises(asl.SourceError) as caught:
            asl.compile("fn main(t) {\n  x = 1 + 1;\n  return x;\n}\n")
        error = caught.exception
        self.assertEqual((error.name, error.reason, error.line, error.column), ("Grammar", "Grammar(21)", 2, 9))
        self.assertIn("an operand is a name", str(error))

    def test_not_text(self):
        for source in (b"\xff", b"", b"\0", "fn main(t) { return t; } é"):
            with self.assertRaises(asl.SourceError):
                asl.compile(source)

    def test_words(self):
        with self.assertRaises(ValueError):
            asl.compile(COUNTER, k=9)
        with self.assertRaises(ValueError):
            asl.call(["compile", "a\nb"])
        self.assertEqual(asl.call(["no such command"])[0], 2)

    def test_diagnose(self):
        self.assertIsNone(asl.diagnose(COUNTER))
        self.assertIsNone(asl.diagnose(asl.compile(COUNTER).text, assembly=True))
        with self.assertRaises(asl.SourceError) as caught:
            asl.diagnose("version 2\nclasses 1\nglobal 5\n", assembly=True)
        self.assertGreaterEqual(caught.exception.line, 1)
        with self.assertRaises(asl.SourceError) as caught:
            asl.diagnose("global g;\nglobal g;\nfn main(t) { return t; }")
        self.assertEqual((caught.exception.name, caught.exception.line), ("Twice", 2))

    def test_long_output(self):
        source = "".join(f"global g{n};\n" for n in range(1000)) + "fn main(t) {\n" + "  x = t;\n" * 20000 + "  return t;\n}\n"
        self.assertGreater(len(command(["map"], source)), 1 << 16)


class Check(unittest.TestCase):
    def test_lists_of_ones_own(self):
        program = asl.compile(BANK)
        self.assertEqual(asl.check(BANK, program), 3)
        self.assertEqual(asl.check(BANK, program.image), 3)
        self.assertEqual(asl.check(BANK, program.text.replace("expr r0 read", "root write")), 3)
        with self.assertRaises(asl.Refused) as caught:
            asl.check(BANK, program.text.replace("write", "read"))
        self.assertEqual((caught.exception.name, caught.exception.reason), ("Uncovered", "Uncovered(0, expr r0 write)"))
        with self.assertRaises(asl.Refused) as caught:
            asl.check(BANK, "nonsense")
        self.assertEqual(caught.exception.reason, "Line(1)")


class Explain(unittest.TestCase):
    def test_text(self):
        self.assertEqual(asl.explain(COUNTER), command(["explain"], COUNTER))
        self.assertEqual(asl.explain(BANK, 0, all=True), command(["explain", "--k", "0", "--all"], BANK))
        with self.assertRaises(asl.SourceError):
            asl.explain("fn main() { return t; }")


def random_sources(count):
    """So many random sources of tests/by-hand/compare, the same at each call."""
    sys.path.insert(0, str(ROOT / "tests"))
    loader = importlib.machinery.SourceFileLoader("compare", str(ROOT / "tests/by-hand/compare"))
    compare = importlib.util.module_from_spec(importlib.util.spec_from_loader("compare", loader))
    loader.exec_module(compare)
    return [compare.source(random.Random(seed)) for seed in range(count)]


class Lists(unittest.TestCase):
    def check(self, source, k):
        """The document says what the program and the map say, and each access of a section stands under a lock of it."""
        program, told = asl.compile(source, k), asl.lists(source, k)
        self.assertEqual((told.k, told.driver), (k, ""))
        self.assertEqual([tuple(listed.lock for listed in section.locks) for section in told.sections], [s.locks for s in program.sections])
        self.assertEqual([(s.place.function, s.place.line, s.place.start, s.place.end) for s in told.sections],
                         [(s.function, s.line, s.start, s.end) for s in program.sections])
        self.assertEqual([(s.reads_cells, s.writes) for s in told.sections], [(s.reads_cells, s.writes) for s in program.sections])
        for section in told.sections:
            for listed in section.locks:
                self.assertTrue(listed.statements, (source, listed))
                for place in listed.statements:
                    self.assertIn("*", source[place.start:place.end])
                    self.assertEqual(source.count("\n", 0, place.start) + 1, place.line)
        members = {words[1] + words[2] + words[3] for words in asl.map_lines(source) if words[0] == "class"}
        self.assertEqual(len(members), sum(len(entry.globals) + len(entry.sites) for entry in told.classes))

    def test_examples(self):
        for path in SOURCES:
            for k in (0, 1, 3, 8):
                self.check(path.read_text(), k)

    def test_random_sources(self):
        for number, source in enumerate(random_sources(30)):
            self.check(source, number % 9)

    def test_words_and_statements(self):
        section = asl.lists(COUNTER).sections[0]
        listed = section.locks[0]
        self.assertEqual((listed.words, listed.lock.text), ("write *p", "expr r1 write"))
        self.assertEqual([COUNTER[place.start:place.end] for place in listed.statements], ["x = *p;", "*p = y;"])
        widened = asl.lists(BANK, 0).sections[1].locks
        self.assertEqual([lock.words for lock in widened], ["class 1 write", "read *from", "read *to"])

    def test_auto(self):
        self.assertEqual(asl.lists(COUNTER, "auto"), asl.lists(COUNTER, 8))
        with self.assertRaises(asl.SourceError):
            asl.lists("fn main(t) { x = *t; return t; }", "auto")
        for k in ("max", "", 9, -1, 1.5, None, True):
            with self.assertRaises(ValueError) as caught:
                asl.lists(COUNTER, k)
            self.assertEqual(str(caught.exception), f"k is a number from 0 to 8 or 'auto', not {k!r}")

    def test_entries(self):
        source = "fn put(p, v) { atomic { *p = v; } return v; }\nfn get(p) { atomic { x = *p; } return x; }\n"
        told = asl.lists(source, entries=["put", "get"])
        self.assertEqual([[lock.words for lock in s.locks] for s in told.sections], [["write *p"], ["read *p"]])
        self.assertEqual(len(told.classes), 3)
        self.assertEqual(told, dataclasses.replace(asl.lists(source + told.driver), driver=told.driver))
        with self.assertRaises(asl.Refused) as caught:
            asl.lists(source, entries=["none"])
        self.assertEqual(caught.exception.reason, "Unknown(none)")
        with self.assertRaises(asl.Refused) as caught:
            asl.lists(COUNTER, entries=["main"])
        self.assertEqual(caught.exception.reason, "Twice(main)")
        for entry in ("", "1a", "a b", "f(); } fn g("):
            for entries in (entry, [entry]):
                with self.assertRaises(ValueError):
                    asl.lists(source, entries=entries)

    def test_one_entry(self):
        """A string is one name; what is no string is none."""
        source = "fn put(p, v) { atomic { *p = v; } return v; }\n"
        self.assertEqual(asl.lists(source, entries="put"), asl.lists(source, entries=["put"]))
        for entries, wrong in ((b"put", 112), ([b"put"], b"put"), ([5], 5), ([None], None), ([["put"]], ["put"])):
            with self.assertRaises(TypeError) as caught:
                asl.lists(source, entries=entries)
            self.assertEqual(str(caught.exception), f"an entry is the name of a function, not {wrong!r}")

    def test_unreached(self):
        told = asl.lists("fn main(t) { return t; } fn f(a) { return a; }")
        self.assertEqual(told.unreached, ("f",))
        self.assertEqual([entry.reached for entry in told.functions], [True, False])

    def test_json(self):
        told = asl.lists(BANK)
        self.assertEqual(json.loads(told.json())["sections"][0]["locks"][0]["text"], "expr r0 write")
        done = subprocess.run([sys.executable, "-m", "asl", "lists", "--k", "auto"], input=BANK, capture_output=True, text=True, check=True)
        self.assertEqual(json.loads(done.stdout)["k"], 8)
        for words, given, said in ((["lists"], "fn f() {", "asl: Grammar(8)"), (["lists", "--entry", "a b"], "", "asl: invalid value 'a b' for '--entry <F>': not the name of a function")):
            done = subprocess.run([sys.executable, "-m", "asl", *words], input=given, capture_output=True, text=True)
            self.assertEqual((done.returncode, done.stdout, done.stderr.strip()), (1, "", said))


class Sessions(unittest.TestCase):
    def test_blocked(self):
        program = asl.compile(COUNTER)
        with asl.Session(program, 2) as session:
            for thread in (0, 0, 1, 1):
                session.step(thread)
            self.assertEqual(session.log().splitlines(), ["0 0 ran", "1 0 ran", "2 1 ran", "3 1 blocked"])
            self.assertEqual(session.place, (4, 4))
            session.go(1)
            self.assertEqual(session.place, (1, 4))
            with self.assertRaises(asl.SessionError) as caught:
                session.step(0)
            self.assertEqual((caught.exception.name, caught.exception.status), ("NotAtEnd", 14))
            session.cut(1)
            session.step(1)
            self.assertEqual(session.place, (2, 2))
            self.assertTrue(session.view().startswith("thread 0"))
            for tell in (session.asks, session.stack, session.objects):
                self.assertIsInstance(tell(), str)
            self.assertEqual(command(["replay"], session.run_file()), "same 2\n")
        for refused in (lambda: session.step(0), session.view, session.close):
            with self.assertRaises(asl.SessionError) as caught:
                refused()
            self.assertEqual(caught.exception.name, "BadHandle")

    def test_refusals(self):
        program = asl.compile(COUNTER)
        for threads in (0, 129, -1, 2 ** 40, 1.5):
            with self.assertRaises(asl.SessionError) as caught:
                asl.Session(program, threads)
            self.assertEqual(caught.exception.name, "BadCount")
        with self.assertRaises(asl.SessionError) as caught:
            asl.Session(b"nonsense", 2)
        self.assertEqual(caught.exception.name, "NoProgram")
        with asl.Session(program.text, 1) as session:
            for refused, name in ((lambda: session.step(1), "BadThread"), (lambda: session.go(1), "NoSuchStep"), (lambda: session.step(-1), "BadThread")):
                with self.assertRaises(asl.SessionError) as caught:
                    refused()
                self.assertEqual(caught.exception.name, name)


class Typed(unittest.TestCase):
    def test_values_are_frozen(self):
        section = asl.compile(COUNTER).sections[0]
        with self.assertRaises(AttributeError):
            section.line = 1

    def test_every_name_is_there(self):
        for name in asl.__all__:
            self.assertTrue(hasattr(asl, name), name)

    def test_runs_without_the_repository(self):
        done = subprocess.run(["python3", "-c", "import asl; print(asl.compile('fn main(t) { return t; }').sections)"],
                              capture_output=True, text=True, cwd="/", env={"PYTHONPATH": str(ROOT / "python"), "PATH": "/usr/bin:/bin",
                                                                           "ASL_LIBRARY": asl.library_path()}, check=True)
        self.assertEqual(done.stdout, "()\n")


if __name__ == "__main__":
    unittest.main()
