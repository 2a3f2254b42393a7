"""Makes the wheel of this package for `pip install .`, by the standard library alone, so that nothing is fetched. In it is the shared
library, which ../tools/library makes of what the repository carries, with a C compiler and without the kit; ASL_LIBRARY may name
another file."""
import base64
import hashlib
import os
import pathlib
import subprocess
import sysconfig
import zipfile

HERE = pathlib.Path(__file__).resolve().parent
LIBRARY = "libasl.so.2"
VERSION = "2"
NAME = f"asl-{VERSION}"
METADATA = f"""Metadata-Version: 2.1
Name: asl
Version: {VERSION}
Summary: Locks for atomic sections, inferred and proved
Requires-Python: >=3.9
"""


def tag():
    return "py3-none-" + sysconfig.get_platform().replace("-", "_").replace(".", "_")


def library():
    named = os.environ.get("ASL_LIBRARY")
    if named:
        return pathlib.Path(named)
    subprocess.run([HERE.parent / "tools/library"], check=True)
    return HERE.parent / "out/lib" / LIBRARY


def files():
    """The files of the wheel, by their names in it."""
    made = {f"asl/{path.name}": path.read_bytes() for path in sorted((HERE / "asl").iterdir()) if path.suffix in (".py", ".typed")}
    made[f"asl/{LIBRARY}"] = library().read_bytes()
    made[f"{NAME}.dist-info/METADATA"] = METADATA.encode()
    made[f"{NAME}.dist-info/WHEEL"] = f"Wheel-Version: 1.0\nGenerator: asl\nRoot-Is-Purelib: false\nTag: {tag()}\n".encode()
    return made


def record(made):
    """The list of the files with their sums, as a wheel has it."""
    lines = []
    for name, data in made.items():
        digest = base64.urlsafe_b64encode(hashlib.sha256(data).digest()).rstrip(b"=").decode()
        lines.append(f"{name},sha256={digest},{len(data)}\n")
    return "".join(lines) + f"{NAME}.dist-info/RECORD,,\n"


def build_wheel(wheel_directory, config_settings=None, metadata_directory=None):
    """What pip asks for: writes the wheel, and answers its name."""
    made = files()
    made[f"{NAME}.dist-info/RECORD"] = record(made).encode()
    name = f"{NAME}-{tag()}.whl"
    with zipfile.ZipFile(pathlib.Path(wheel_directory) / name, "w", zipfile.ZIP_DEFLATED) as wheel:
        for path, data in made.items():
            wheel.writestr(path, data)
    return name


def build_sdist(sdist_directory, config_settings=None):
    raise SystemExit("asl has no source distribution: its library is made in the repository")
