"""Tries programs as data: what is read, against the commands and the text; requests of lists, against the machine's; each refusal; threads
that share one program or one session."""
import contextlib
import pathlib
import random
import re
import subprocess
import sys
import threading
import time
import unittest
from unittest import mock

import asl

ROOT = pathlib.Path(__file__).resolve().parents[2]
COUNTER = (ROOT / "examples/counter.asl").read_text()
BANK = (ROOT / "examples/bank.asl").read_text()
SOURCES = sorted((ROOT / "examples").glob("*.asl"))
ACCOUNT = 1


class Readers(unittest.TestCase):
    def check_source(self, source, k):
        """What is read of the program of a source is what the commands say."""
        compiled, told = asl.compile(source, k), asl.lists(source, k)
        with asl.Program.compile(source, k) as program:
            self.assertEqual([tuple(entry.lock for entry in one.locks) for one in program.lists], [s.locks for s in compiled.sections])
            self.assertEqual([[entry.klass for entry in one.locks] for one in program.lists], [[one.klass for one in s.locks] for s in told.sections])
            self.assertEqual([(one.reads_cells, one.writes) for one in program.lists], [(s.reads_cells, s.writes) for s in compiled.sections])
            self.assertEqual([program.function(one.function).name for one in program.sections], [s.function for s in compiled.sections])
            self.assertEqual([one.list for one in program.sections], list(range(len(compiled.sections))))
            self.check_names(source, program)
            self.check_text(compiled.text, program)

    def check_names(self, source, program):
        lines = asl.map_lines(source)
        self.assertEqual([one.name for one in program.globals], [words[2] for words in lines if words[0] == "global"])
        self.assertEqual([one.name for one in program.functions], [words[2] for words in lines if words[0] == "function"])
        names = [["register", str(f.number), str(n), name] for f in program.functions for n, name in enumerate(f.names) if name]
        self.assertEqual(sorted(names), sorted(words for words in lines if words[0] == "register"))

    def check_text(self, text, program):
        """Counts, places and nodes are those of the assembly text."""
        counts, code = program.counts, [line.split() for line in text.replace(",", "").splitlines()]
        heads = [line for line in code if line[0] == "fn"]
        self.assertEqual([(f.parameters, f.registers) for f in program.functions], [(int(line[1]), int(line[2])) for line in heads])
        self.assertEqual([one.klass for one in program.globals], [int(line[1]) for line in code if line[0] == "global"])
        self.assertEqual([f.first for f in program.functions], [sum(g.instructions for g in program.functions[:n]) for n in range(counts.functions)])
        self.assertEqual(sum(f.instructions for f in program.functions), counts.instructions)
        self.assertEqual((counts.sections, counts.lists), (sum(line[0] == "acq" for line in code), sum(line[0] == "list" for line in code)))
        self.assertEqual(counts.names_root, any(line[0] == "root" for line in code))
        named = {int(line[1]) for line in code if line[0] == "class"}
        self.assertEqual([program.names_class(n) for n in range(counts.classes)], [n in named for n in range(counts.classes)])

    def test_every_example(self):
        for path in SOURCES:
            for k in (0, 1, 3, 8):
                self.check_source(path.read_text(), k)

    def test_image_and_text_have_no_names(self):
        for path in SOURCES:
            compiled = asl.compile(path.read_text())
            with asl.Program.open(compiled.image) as image, asl.Program.open(compiled.text) as text, asl.Program.open(compiled) as same:
                self.assertEqual([(p.counts, p.functions, p.sections, p.lists, p.globals) for p in (text, same)],
                                 [(image.counts, image.functions, image.sections, image.lists, image.globals)] * 2)
                self.assertFalse(image.counts.has_source)
                self.assertEqual({name for f in image.functions for name in (f.name, *f.names)} | {g.name for g in image.globals}, {None})
                locks = [entry for one in image.lists for entry in one.locks]
                self.assertEqual([entry.lock.text for entry in locks], [lock.text for s in compiled.sections for lock in s.locks])
                self.assertTrue(all(entry.klass is None or entry.lock.kind == "class" for entry in locks))
                self.assertTrue(all(entry.lock.name == entry.lock.base for entry in locks))

    def test_nodes_that_no_list_names(self):
        with asl.Program.compile(BANK, 0) as widened, asl.Program.compile(BANK) as fine:
            self.assertEqual([widened.names_class(n) for n in (0, 1)], [False, True])
            self.assertEqual([fine.names_class(n) for n in (0, 1)], [False, False])
            self.assertFalse(fine.counts.names_root)
        with asl.Program.open(asl.compile(COUNTER).text.replace("expr r1 write", "root write")) as whole:
            self.assertTrue(whole.counts.names_root)
            self.assertEqual(whole.list(0).locks[0].lock, asl.Lock("root", "write", "root write"))

    def test_values_are_frozen(self):
        with asl.Program.compile(COUNTER) as program:
            for value in (program.counts, program.list(0), program.list(0).locks[0], program.section(0), program.function(0), program.global_(0)):
                with self.assertRaises(AttributeError):
                    value.number = 7


class Bank:
    """Four globals, each with the address of an account, which is shown as the evaluation comes to it."""

    accounts = (2, 0, 3, 1)

    def __init__(self, program):
        self.objects, self.asked = program.global_objects(), []

    def tell(self, place, offset):
        self.asked.append((place, offset))
        self.objects.append(asl.Object(ACCOUNT, 4 + self.accounts[place]))
        return asl.Address(len(self.objects) - 1)


TRANSFER = (
    asl.Ask("root", "IX"), asl.Ask("class", "IS", 0), asl.Ask("class", "IX", 1), asl.Ask("leaf", "S", 0, 0, 0), asl.Ask("leaf", "S", 0, 1, 0),
    asl.Ask("leaf", "X", 1, 4, 0), asl.Ask("leaf", "X", 1, 6, 0))
FROM_ANN_TO_BOB = (asl.Address(0), asl.Address(1), 10)


class Busy(Exception):
    """Another thread writes the cell."""


class Requests(unittest.TestCase):
    def setUp(self):
        self.program = asl.Program.compile(BANK)
        self.addCleanup(self.program.__exit__)

    def test_callback(self):
        bank = Bank(self.program)
        self.assertEqual(self.program.request(1, FROM_ANN_TO_BOB, bank.objects, bank.tell), TRANSFER)
        self.assertEqual(bank.asked, [(0, 0), (1, 0)])

    def test_mapping(self):
        objects = self.program.global_objects() + [asl.Object(ACCOUNT, 6), asl.Object(ACCOUNT, 4)]
        cells = {(0, 0): asl.Address(4), (1, 0): asl.Address(5), (2, 0): asl.Address(4)}
        self.assertEqual(self.program.request(1, FROM_ANN_TO_BOB, objects, cells), TRANSFER)
        with self.assertRaises(asl.NeedsCell) as caught:
            self.program.request(1, FROM_ANN_TO_BOB, objects, {(0, 0): asl.Address(4)})
        self.assertEqual((caught.exception.name, caught.exception.status, caught.exception.cell), ("NeedsCell", 26, (1, 0)))
        with self.assertRaises(asl.NeedsCell) as caught:
            self.program.request(1, FROM_ANN_TO_BOB, objects)
        self.assertEqual(caught.exception.cell, (0, 0))
        self.assertEqual(str(caught.exception), "NeedsCell: cell 0 of the object at place 0 was not told")

    def test_registers_that_are_not_shown(self):
        """Nothing would be asked for them: so they are refused where a lock names them, and nowhere else."""
        objects = self.program.global_objects()
        for few in ((), FROM_ANN_TO_BOB[:1], iter(FROM_ANN_TO_BOB[:1])):
            with self.assertRaisesRegex(ValueError, "names register 1, and only [01] are given"):
                self.program.request(1, few, objects)
        bank = Bank(self.program)
        self.assertEqual(self.program.request(1, FROM_ANN_TO_BOB[:2], bank.objects, bank.tell), TRANSFER)
        with self.assertRaisesRegex(ValueError, "names register 0, and only 0 are given"):
            self.program.request(0, (), objects)
        head = "version 2\nclasses 1\nglobal 0\nentry 0\nfn 1 2\nacq 0\nrel\nret r0\nlist\n"
        for locks in ("root write", "class 0 read", "expr g0 write"):
            with asl.Program.open(f"{head}{locks}\n") as program:
                self.assertTrue(program.request(0, (), program.global_objects()))

    def test_what_is_no_address(self):
        objects = self.program.global_objects()
        only_globals = tuple(ask for ask in TRANSFER if ask.klass == 0 and ask.kind == "leaf")
        for none in (None, 0, 7, -1, 2 ** 70):
            asks = self.program.request(1, FROM_ANN_TO_BOB, objects, lambda place, offset: none)
            self.assertEqual(tuple(ask for ask in asks if ask.kind == "leaf"), only_globals)
            self.assertEqual(self.program.request(1, (none, none, none), objects), ())
        self.assertEqual(self.program.request(1, (asl.Address(9), asl.Address(65535, 255)), objects), ())

    def test_offsets_and_paths(self):
        """The cell at an offset, the one whose address it holds, and one that lies a number of cells on."""
        source = ("fn main(t) {\n  n = new 3;\n  m = new 2;\n  b = &m[1];\n  a = &n[2];\n  atomic { *a = b; }\n  n = &a[0];\n"
                  "  atomic { q = *n; one = 1; *q = one; }\n  return t;\n}\n")
        with asl.Program.compile(source) as program:
            entry = program.list(program.section(1).list)
            register = program.function(0).names.index("n")
            self.assertEqual([one.lock.text for one in entry.locks], [f"expr r{register} read", f"expr r{register} * write"])
            klass, other = (one.klass for one in entry.locks)
            objects = [asl.Object(klass, 500, 3), asl.Object(other, 9, 2)]
            registers = [None] * register + [asl.Address(0, 2)]
            asks = program.request(entry.number, registers, objects, {(0, 2): asl.Address(1, 1)})
            self.assertEqual([ask for ask in asks if ask.kind == "leaf"], [asl.Ask("leaf", "S", klass, 500, 2), asl.Ask("leaf", "X", other, 9, 1)])
        with asl.Program.open("version 2\nclasses 1\nentry 0\nfn 1 1\nacq 0\nrel\nret r0\nlist\nexpr r0 .1 * .2 read\n") as program:
            self.assertEqual(program.list(0).locks[0].lock.path, (1, "*", 2))
            objects = [asl.Object(0, 3, 2), asl.Object(0, 4, 200)]
            asks = program.request(0, [asl.Address(0)], objects, {(0, 1): asl.Address(1, 150)})
            self.assertEqual(asks, (asl.Ask("root", "IS"), asl.Ask("class", "IS", 0), asl.Ask("leaf", "S", 0, 4, 152)))
            self.assertEqual(program.request(0, [asl.Address(0)], objects, {(0, 1): asl.Address(1, 198)}), ())

    def test_each_mode(self):
        """Locks that ask at one node join their modes."""
        head = "version 2\nclasses 2\nentry 0\nfn 1 1\nacq 0\nrel\nret r0\nlist\n"
        modes = {"class 0 read": ("IS", "S"), "class 0 write": ("IX", "X"), "class 0 read\nexpr r0 write": ("IX", "SIX", "X"),
                 "expr r0 read": ("IS", "IS", "S"), "root read\nclass 1 write": ("SIX", "X"), "root write": ("X",), "root read": ("S",)}
        for locks, wanted in modes.items():
            with asl.Program.open(f"{head}{locks}\n") as program:
                self.assertEqual([one.lock.text for one in program.list(0).locks], locks.split("\n"))
                self.assertEqual(tuple(ask.mode for ask in program.request(0, [asl.Address(0)], [asl.Object(0, 0)])), wanted)

    def test_a_function_ends_the_evaluation(self):
        def refuse(place, offset):
            raise Busy(place)

        with self.assertRaises(Busy) as caught:
            self.program.request(1, FROM_ANN_TO_BOB, self.program.global_objects(), refuse)
        self.assertEqual(caught.exception.args, (0,))

    def test_a_function_may_call_and_close(self):
        bank = Bank(self.program)

        def tell(place, offset):
            self.assertEqual(self.program.counts.globals, 4)
            return bank.tell(place, offset)

        def close(place, offset):
            self.program.close()

        self.assertEqual(self.program.request(1, FROM_ANN_TO_BOB, bank.objects, tell), TRANSFER)
        with self.assertRaises(asl.ProgramError) as caught:
            self.program.request(1, FROM_ANN_TO_BOB, bank.objects, close)
        self.assertEqual(caught.exception.name, "BadHandle")

    def test_wrong_values(self):
        objects = self.program.global_objects()
        for wrong in ("r0", 1.5, (0, 0), asl.Object(0, 0)):
            with self.assertRaises(TypeError):
                self.program.request(1, (wrong,), objects)
            with self.assertRaises(TypeError):
                self.program.request(1, FROM_ANN_TO_BOB, objects, lambda place, offset: wrong)
        for words in ((-1,), (65536,), (0, 256), (0, -1), ("0",), (0, 1.5)):
            with self.assertRaises(ValueError):
                asl.Address(*words)
        for words in ((-1, 0), (65536, 0), (0, 65536), (0, -1), (0, 0, 256), (0, 0, -1), (None, 0)):
            with self.assertRaises(ValueError):
                asl.Object(*words)
        for few in range(4):
            with self.assertRaises(ValueError):
                self.program.request(1, FROM_ANN_TO_BOB, objects[:few])


class Run:
    """What a session tells at its position: the objects, and of each thread at its outermost `acq` its place, its registers and what it
    asks for."""

    modes = {"root": 2, "class": 3, "leaf": 3}

    def __init__(self, session):
        self.cells = {tuple(map(int, words[1].split("."))): self.value(words[2:]) for words in self.lines(session.view()) if words[0] == "cell"}
        self.objects = [asl.Object(int(words[2]), 3 * n + 1, int(words[3])) for n, words in
                        enumerate(words for words in self.lines(session.objects()) if words[0] == "object")]
        self.frames, self.locals, self.asks = {}, {}, {}
        for words in self.lines(session.stack()):
            if words[0] == "frame" and words[2] == "0":
                self.frames[int(words[1])] = int(words[words.index("pc") + 1])
            if words[0] == "local" and words[2] == "0":
                self.locals.setdefault(int(words[1]), []).append(self.value(words[4:]))
        for words in self.lines(session.asks()):
            if words[0] == "asks":
                self.asks.setdefault(int(words[1]), set()).update(self.ask(words[2:]))

    @staticmethod
    def lines(text):
        return [line.split() for line in text.splitlines()]

    @staticmethod
    def value(words):
        return asl.Address(*map(int, words[1].split("."))) if words[0] == "addr" else None

    def ask(self, words):
        """The ask of a line, or none where the thread asks for nothing."""
        if words[0] == "root":
            yield asl.Ask("root", words[1])
        if words[0] == "class":
            yield asl.Ask("class", words[2], int(words[1]))
        if words[0] == "leaf":
            number, offset = map(int, words[1].split("."))
            yield asl.Ask("leaf", words[2], self.objects[number].klass, self.objects[number].number, offset)


class AgainstTheMachine(unittest.TestCase):
    """Each request at each position of runs by schedules from seeds is the machine's."""

    def check(self, source, seed, steps):
        compared, schedule = 0, random.Random(seed)
        with asl.Program.compile(source) as program, asl.Session(asl.compile(source), 3) as session:
            lists = {section.place: section.list for section in program.sections}
            for _ in range(steps):
                run = Run(session)
                for thread, wanted in run.asks.items():
                    asks = program.request(lists[run.frames[thread]], run.locals[thread], run.objects, run.cells)
                    self.assertEqual((len(asks), set(asks)), (len(wanted), wanted))
                    ranks = [(("root", "class", "leaf").index(ask.kind), ask.klass or 0, ask.object or 0, ask.offset or 0) for ask in asks]
                    self.assertEqual(ranks, sorted(set(ranks)))
                    compared += 1
                session.step(schedule.randrange(3))
        return compared

    def test_every_example(self):
        self.assertGreater(sum(self.check(path.read_text(), seed, 120) for path in SOURCES for seed in (1, 2)), 500)


class Refusals(unittest.TestCase):
    def refused(self, name, status, call, *words):
        with self.assertRaises(asl.ProgramError) as caught:
            call(*words)
        self.assertEqual((caught.exception.name, caught.exception.status, str(caught.exception)), (name, status, name))
        self.assertIsInstance(caught.exception, asl.AslError)
        return caught.exception

    def test_no_program(self):
        image = asl.compile(COUNTER).image
        for given, reason in ((image[:-1], "Truncated"), (b"ASLM", "Truncated"), (image + b"\0", "Trailing"), ("nonsense", "Line"), ("", None), (b"\xff", None)):
            cause = self.refused("NoProgram", 12, asl.Program.open, given).__cause__
            self.assertIsInstance(cause, asl.Refused)
            if reason == "Line":
                self.assertEqual((type(cause), cause.line), (asl.SourceError, 1))

    def test_no_source(self):
        cause = self.refused("NoSource", 22, asl.Program.compile, "fn main(t) {\n  x = 1 + 1;\n  return x;\n}\n").__cause__
        self.assertEqual((type(cause), cause.name, cause.line, cause.column), (asl.SourceError, "Grammar", 2, 9))
        for source in ("", b"\xff", asl.compile(COUNTER).image):
            self.assertIsInstance(self.refused("NoSource", 22, asl.Program.compile, source).__cause__, asl.SourceError)

    def test_paths_that_are_too_long(self):
        for k in (9, -1, 2 ** 32, 2 ** 64, 1.5, None, "3"):
            self.assertIsNone(self.refused("BadLength", 23, asl.Program.compile, "no source", k).__cause__)

    def test_wrong_numbers(self):
        with asl.Program.compile(COUNTER) as program:
            counts, objects = program.counts, program.global_objects()
            parts = ((program.names_class, counts.classes), (program.global_, counts.globals), (program.function, counts.functions),
                     (program.section, counts.sections), (program.list, counts.lists))
            for read, count in parts:
                self.assertIsNotNone(read(count - 1))
                for wrong in (count, 65536, 2 ** 32 - 1, 2 ** 32, 2 ** 70, -1, 0.0, None, "0"):
                    self.refused("NoSuchNumber", 24, read, wrong)
            for wrong in (counts.lists, -1, 2 ** 32, None):
                self.refused("NoSuchNumber", 24, program.request, wrong, [], objects)

    def all_calls(self, program, objects):
        reads = [program.names_class, program.global_, program.function, program.section, program.list]
        yield from ((lambda read=read: read(0)) for read in reads)
        yield lambda: program.request(0, [], objects)
        names = ("counts", "globals", "functions", "sections", "lists")
        yield from ((lambda name=name: getattr(program, name)) for name in names)
        yield program.global_objects
        yield program.close

    def test_closed(self):
        program = asl.Program.compile(COUNTER)
        objects = program.global_objects()
        program.close()
        with asl.Program.compile(COUNTER) as ended:
            self.assertEqual(ended.counts.lists, 1)
        for closed in (program, ended, asl.Program()):
            for call in self.all_calls(closed, objects):
                self.refused("BadHandle", 3, call)
            with closed:
                pass

    def test_a_fault_in_a_with_closes(self):
        with self.assertRaises(Busy):
            with asl.Program.compile(COUNTER) as program:
                raise Busy
        self.refused("BadHandle", 3, program.close)

    def test_no_memory(self):
        """The memory of a child is bounded, so that the library finds none: status 2, and the program that was open stays so."""
        child = ("import asl, resource, sys\n"
                 "source = 'fn main(t) {\\n' + '  x = t;\\n' * 50000 + '  return t;\\n}\\n'\n"
                 "kept = asl.Program.compile(open(sys.argv[1]).read())\n"
                 "pages = int(open('/proc/self/statm').read().split()[0])\n"
                 "resource.setrlimit(resource.RLIMIT_AS, (pages * resource.getpagesize() + (1 << 20),) * 2)\n"
                 "try:\n"
                 "    asl.Program.compile(source)\n"
                 "except asl.ProgramError as error:\n"
                 "    print(error.name, error.status, kept.counts.globals)\n")
        done = subprocess.run([sys.executable, "-c", child, ROOT / "examples/bank.asl"], capture_output=True, text=True)
        self.assertEqual((done.stdout, done.stderr), ("OutOfMemory 2 4\n", ""))

    def test_names_are_those_of_the_header(self):
        header = (ROOT / "include/asl.h").read_text()
        statuses = dict(re.findall(r"\bASL_(\w+) = (\d+)", header[header.index("ASL_OK = 0"):]))
        known = {"NO_MEMORY": "OutOfMemory", "NO_SUCH_STEP": "NoSuchStep"}
        for name in ("NO_MEMORY", "BAD_HANDLE", "BAD_THREAD", "BAD_COUNT", "NO_PROGRAM", "NO_SUCH_STEP", "NOT_AT_END", "JOURNAL_FULL", "NULL_POINTER",
                     "NO_SOURCE", "BAD_LENGTH", "NO_SUCH_NUMBER", "NO_NAMES", "NEEDS_CELL", "NO_ROOM"):
            wanted = known.get(name, "".join(word.capitalize() for word in name.split("_")))
            self.assertEqual(asl.ProgramError(int(statuses[name])).name, wanted)
        self.assertEqual(asl.SessionError(99).name, "Status99")

    def test_an_older_library_is_named(self):
        from asl import _library
        with self.assertRaises(asl.LibraryError) as caught:
            _library.function_of("asl_program_of_a_later_version", [])
        self.assertIn("asl_program_of_a_later_version", str(caught.exception))


class Overlaps:
    """Functions in place of the library's, which tell whether two calls overlapped."""

    def __init__(self, functions):
        self.inside, self.most, self.functions = 0, 0, {name: self.watched(function) for name, function in functions.items()}

    def watched(self, function):
        def call(*words):
            self.inside += 1
            self.most = max(self.most, self.inside)
            time.sleep(0.0001)
            try:
                return function(*words)
            finally:
                self.inside -= 1

        return call


@contextlib.contextmanager
def watched(kind):
    overlaps = Overlaps(kind._functions)
    with mock.patch.object(kind, "_functions", overlaps.functions):
        yield overlaps


def at_once(count, work):
    """What so many threads return, or raise."""
    said = [None] * count

    def run(n):
        try:
            said[n] = work(n)
        except Exception as error:
            said[n] = error

    threads = [threading.Thread(target=run, args=(n,)) for n in range(count)]
    for thread in threads:
        thread.start()
    for thread in threads:
        thread.join()
    return said


class Threads(unittest.TestCase):
    def test_readers_and_requests(self):
        with watched(asl.Program) as overlaps, asl.Program.compile(BANK) as program:
            lists = program.lists

            def work(n):
                bank = Bank(program)
                return [(program.lists, program.request(1, FROM_ANN_TO_BOB, bank.objects, bank.tell)) for _ in range(1 + n % 2)]

            said = at_once(6, work)
            self.assertEqual(said, [[(lists, TRANSFER)] * (1 + n % 2) for n in range(6)])
            self.assertEqual(overlaps.most, 1)

    def test_close_while_others_read(self):
        program = asl.Program.compile(BANK)
        begun = threading.Event()

        def work(n):
            if n == 0:
                begun.wait()
                return program.close()
            for _ in range(10 ** 7):
                self.assertEqual(program.counts.globals, 4)
                begun.set()

        said = at_once(5, work)
        self.assertIsNone(said[0])
        self.assertEqual([error.name for error in said[1:]], ["BadHandle"] * 4)

    def test_one_of_many_closes(self):
        program = asl.Program.compile(COUNTER)
        said = at_once(8, lambda n: program.close())
        self.assertEqual(sorted(str(one) for one in said), ["BadHandle"] * 7 + ["None"])

    def test_each_its_own(self):
        def work(n):
            with asl.Program.compile(SOURCES[n % len(SOURCES)].read_text()) as program:
                return program.lists

        said = at_once(8, work)
        for n, lists in enumerate(said):
            self.assertEqual([tuple(entry.lock for entry in one.locks) for one in lists],
                             [section.locks for section in asl.compile(SOURCES[n % len(SOURCES)].read_text()).sections])

    def test_a_session(self):
        with watched(asl.Session) as overlaps, asl.Session(asl.compile(COUNTER), 4) as session:
            said = at_once(4, lambda n: [(session.step(n), session.view())[0] for _ in range(20)])
            self.assertEqual(said, [[None] * 20] * 4)
            self.assertEqual((session.place, overlaps.most), ((80, 80), 1))
            self.assertEqual(len(session.log().splitlines()), 80)


if __name__ == "__main__":
    unittest.main()
