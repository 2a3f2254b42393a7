"""What tests/native and tests/parallel share: the program `asl`, the library, the runtime, and the C programs that `asl c` prints."""
import os
import pathlib
import subprocess
import sys

ROOT = pathlib.Path(__file__).resolve().parent.parent.parent
ASL = os.environ.get("ASL", str(ROOT / "asl"))
CC = os.environ.get("CC", "cc")
WARNINGS = ["-std=c11", "-Wall", "-Wextra", "-Wpedantic", "-Werror", "-pthread", "-I", str(ROOT / "include"), "-I", str(ROOT / "runtime")]
LIBRARY = ROOT / "out/lib/libasl.a"
sys.path.insert(0, str(ROOT / "tests"))
sys.dont_write_bytecode = True


def asl(words, given):
    """Status, output and errors of a command."""
    done = subprocess.run([ASL, *words], input=given, capture_output=True, timeout=60)
    return done.returncode, done.stdout, done.stderr


def ready():
    """The library is made, and the program has `asl c`."""
    subprocess.run([ROOT / "tools/library"], check=True)
    status, _, errors = asl(["c"], (ROOT / "examples/counter.asl").read_bytes())
    if status:
        sys.exit(f"{os.path.basename(sys.argv[0])}: `{ASL} c` does not answer: {errors.decode().strip()}")


def objects(folder, flags, main=ROOT / "runtime/asl_main.c"):
    """The runtime, compiled with these flags; `main` is the file with aslr_main and aslr_out."""
    folder.mkdir()
    sources = [file for file in sorted((ROOT / "runtime").glob("*.c")) if file.name != "asl_main.c"] + [main]
    compiles = []
    for source in sources:
        words = [CC, *WARNINGS, *flags, "-I", str(ROOT / "tests/native.d"), "-c", str(source), "-o", str(folder / (source.stem + ".o"))]
        compiles.append(subprocess.Popen(words))
    if any([one.wait() for one in compiles]):
        sys.exit(f"{sys.argv[0]}: the runtime does not compile with {' '.join(flags)}")
    return [str(folder / (source.stem + ".o")) for source in sources]


def compiles(flags):
    """Whether the compiler has these flags, and what it makes runs."""
    test = "int main(void) { return 0; }\n"
    out = f"/tmp/asl-native-{os.getpid()}"
    try:
        done = subprocess.run([CC, *flags, "-x", "c", "-", "-o", out], input=test.encode(), capture_output=True)
        return done.returncode == 0 and subprocess.run([out], capture_output=True).returncode == 0
    finally:
        if os.path.exists(out):
            os.unlink(out)


def build(folder, name, c_text, made, flags, compiler=CC):
    """The program of a text that `asl c` printed."""
    source, out = folder / f"{name}.c", folder / name
    source.write_bytes(c_text)
    done = subprocess.run([compiler, *WARNINGS, *flags, str(source), *made, str(LIBRARY), "-o", str(out)], capture_output=True, text=True)
    if done.returncode:
        sys.exit(f"{sys.argv[0]}: {source.read_text()}\ndoes not compile: {done.stderr}")
    return out


def examples():
    return [(file.stem, file.read_text()) for file in sorted((ROOT / "examples").glob("*.asl"))]
