"""Builds the wheel, with a C compiler and nothing else: what pip calls (PEP 517), and what the script `build` calls.

The library is libmabristu.a of the folder that MABRISTU_LIB names, or of dist/ of this repository, and the header the one of this repository or of
MABRISTU_INCLUDE. The wheel is for the processor that the compiler, CC or cc, compiles for. The same compiler makes the same bytes of the same files.
"""
import base64
import glob
import hashlib
import os
import re
import subprocess
import sysconfig
import tempfile
import zipfile

HERE = os.path.dirname(os.path.realpath(__file__))
TOP = os.path.dirname(os.path.dirname(HERE))
FLAGS = ["-std=c11", "-O2", "-fPIC", "-fvisibility=hidden", "-Wall", "-Wextra", "-shared", "-Wl,--exclude-libs,ALL", "-Wl,--build-id=none", "-Wl,-s"]
# What a zip file says of when a file was made.
THEN = (2026, 1, 1, 0, 0, 0)


def read(path):
    with open(path, "rb") as it:
        return it.read()


def project(key):
    """A line of pyproject.toml, which Python 3.9 has no reader for."""
    return re.search(rf'^{key} = "(.*)"$', read(f"{HERE}/pyproject.toml").decode(), re.M)[1]


def compiler():
    return os.environ.get("CC", "cc")


def tag():
    """The tag of the wheel, with the processor that the compiler compiles for."""
    machine = subprocess.run([compiler(), "-dumpmachine"], check=True, capture_output=True, text=True).stdout
    return f"cp39-abi3-linux_{machine.split('-')[0]}"


def library():
    return os.path.join(os.environ.get("MABRISTU_LIB", f"{TOP}/dist"), "libmabristu.a")


def compiled(folder, flags=()):
    """Compiles the extension module into a folder."""
    include = os.environ.get("MABRISTU_INCLUDE", f"{TOP}/include")
    made = f"{folder}/_mabristu.abi3.so"
    # Names without a folder, so that no path goes into what is made.
    sources = sorted(os.path.basename(it) for it in glob.glob(f"{HERE}/c/*.c"))
    python = sysconfig.get_paths()["include"]
    words = [compiler(), *FLAGS, *flags, f"-I{include}", f"-I{python}", "-o", made, *sources, os.path.abspath(library())]
    subprocess.run(words, cwd=f"{HERE}/c", check=True)
    return made


def metadata():
    lines = ["Metadata-Version: 2.1", f"Name: {project('name')}", f"Version: {project('version')}", f"Summary: {project('description')}",
             f"License: {project('license')}", f"Requires-Python: {project('requires-python')}"]
    return "\n".join(lines).encode() + b"\n"


def package_files():
    """The files of the package that are not compiled, by their paths in it."""
    paths = [os.path.relpath(f"{at}/{it}", f"{HERE}/mabristu") for at, _, names in os.walk(f"{HERE}/mabristu") for it in names]
    return sorted(it for it in paths if it.endswith((".py", ".pyi", ".typed", ".html", ".css", ".js")))


def files_of(extension):
    """What the wheel holds, but for RECORD: each file's name and bytes."""
    found = [(f"mabristu/{it}", read(f"{HERE}/mabristu/{it}")) for it in package_files()]
    found.append(("mabristu/_mabristu.abi3.so", read(extension)))
    # The hash says which library a wheel has.
    found.append(("mabristu/_library.txt", f"{hashlib.sha256(read(library())).hexdigest()}\n".encode()))
    info = f"mabristu-{project('version')}.dist-info"
    found.append((f"{info}/METADATA", metadata()))
    # pip may build from a copy of this folder alone.
    if os.path.isfile(f"{TOP}/LICENSE"):
        found.append((f"{info}/LICENSE", read(f"{TOP}/LICENSE")))
    found.append((f"{info}/WHEEL", f"Wheel-Version: 1.0\nGenerator: mabristu\nRoot-Is-Purelib: false\nTag: {tag()}\n".encode()))
    return info, found


def record_line(name, data):
    digest = base64.urlsafe_b64encode(hashlib.sha256(data).digest()).rstrip(b"=").decode()
    return f"{name},sha256={digest},{len(data)}\n"


def build_wheel(wheel_directory, config_settings=None, metadata_directory=None, flags=()):
    with tempfile.TemporaryDirectory() as folder:
        info, found = files_of(compiled(folder, flags))
    record = "".join(record_line(*it) for it in found) + f"{info}/RECORD,,\n"
    wheel = f"mabristu-{project('version')}-{tag()}.whl"
    with zipfile.ZipFile(f"{wheel_directory}/{wheel}", "w", zipfile.ZIP_DEFLATED) as it:
        for name, data in [*found, (f"{info}/RECORD", record.encode())]:
            entry = zipfile.ZipInfo(name, THEN)
            entry.compress_type = zipfile.ZIP_DEFLATED
            entry.external_attr = (0o100755 if name.endswith(".so") else 0o100644) << 16
            it.writestr(entry, data, compresslevel=9)
    return wheel
