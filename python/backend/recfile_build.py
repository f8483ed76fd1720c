"""Builds the wheel with what Python and a C compiler bring, so that no network is needed.

    python3 -m pip wheel --no-deps .

The C library is the one that ./install put into a folder: that of RECFILE_PREFIX, or else the one that pkg-config finds.
The wheel carries it, and needs nothing but the system's libc; with RECFILE_SHARED=1 it is linked to librecfile.so instead,
as a distribution wants it. One wheel serves Python 3.9 and all later ones; it is the same bytes each time.
"""

import base64
import gzip
import hashlib
import io
import os
import re
import shlex
import subprocess
import sys
import sysconfig
import tarfile
import tempfile
import time
import zipfile
from pathlib import Path

HERE = Path(__file__).resolve().parent.parent
PACKAGE = HERE / "src" / "recfile"
VERSION = re.search(r'^__version__ = "(.*)"$', (PACKAGE / "__init__.py").read_text(), re.M).group(1)
NAME = f"recfile-{VERSION}"
PLATFORM = re.sub(r"[-.]", "_", sysconfig.get_platform())
TAG = f"cp39-abi3-{PLATFORM}"
EPOCH = int(os.environ.get("SOURCE_DATE_EPOCH", "315532800"))  # the first moment that a zip archive can tell
SOURCES = ("README.md", "pyproject.toml", "backend/*.py", "src/recfile/*.c", "src/recfile/*.py*", "src/recfile/py.typed",
           "tests/*.[cp]*", "bench/*.py", "examples/*.py")

METADATA = f"""\
Metadata-Version: 2.1
Name: recfile
Version: {VERSION}
Summary: A keyed record file for several open units of work
Requires-Python: >=3.9
Classifier: Operating System :: POSIX :: Linux
Classifier: Programming Language :: Python :: 3
Classifier: Topic :: Database
Classifier: Typing :: Typed
Description-Content-Type: text/markdown

"""
WHEEL = f"""\
Wheel-Version: 1.0
Generator: recfile_build
Root-Is-Purelib: false
Tag: {TAG}
"""


def build_wheel(wheel_directory, config_settings=None, metadata_directory=None):
    """Writes the wheel into a folder, and returns its name."""
    with tempfile.TemporaryDirectory() as room:
        module = Path(room) / "_recfile.abi3.so"
        compile_module(module)
        files = {f"recfile/{path.name}": path.read_bytes() for path in package_files()}
        files["recfile/_recfile.abi3.so"] = module.read_bytes()
    told = f"{NAME}.dist-info"
    files[f"{told}/METADATA"] = metadata()
    files[f"{told}/WHEEL"] = WHEEL.encode()
    licence = HERE.parent / "LICENSE"
    if licence.is_file():
        files[f"{told}/licenses/LICENSE"] = licence.read_bytes()
    files[f"{told}/RECORD"] = record_of(files, f"{told}/RECORD")
    name = f"{NAME}-{TAG}.whl"
    with zipfile.ZipFile(Path(wheel_directory) / name, "w", zipfile.ZIP_DEFLATED) as wheel:
        for path, content in files.items():
            entry = zipfile.ZipInfo(path, time.gmtime(EPOCH)[:6])
            entry.external_attr = (0o755 if path.endswith(".so") else 0o644) << 16
            entry.compress_type = zipfile.ZIP_DEFLATED
            wheel.writestr(entry, content)
    return name


def build_sdist(sdist_directory, config_settings=None):
    """Writes an archive of the sources into a folder, and returns its name."""
    held = io.BytesIO()
    with tarfile.open(fileobj=held, mode="w", format=tarfile.PAX_FORMAT) as archive:
        add(archive, "PKG-INFO", metadata())
        for pattern in SOURCES:
            for path in sorted(HERE.glob(pattern)):
                add(archive, path.relative_to(HERE).as_posix(), path.read_bytes())
    name = f"{NAME}.tar.gz"
    (Path(sdist_directory) / name).write_bytes(gzip.compress(held.getvalue(), mtime=EPOCH))
    return name


def add(archive, path, content):
    entry = tarfile.TarInfo(f"{NAME}/{path}")
    entry.size = len(content)
    entry.mtime = EPOCH
    archive.addfile(entry, io.BytesIO(content))


def package_files():
    return sorted([*PACKAGE.glob("*.py"), *PACKAGE.glob("*.pyi"), PACKAGE / "py.typed"])


def metadata():
    return (METADATA + (HERE / "README.md").read_text()).encode()


def record_of(files, itself):
    """The list of a wheel's files, with the sum of each."""
    lines = []
    for path, content in files.items():
        digest = base64.urlsafe_b64encode(hashlib.sha256(content).digest()).rstrip(b"=").decode()
        lines.append(f"{path},sha256={digest},{len(content)}\n")
    return "".join([*lines, f"{itself},,\n"]).encode()


def compile_module(to):
    """Compiles _recfile.c over the C library. Ends the build with the compiler's words where that fails."""
    include, folder = find_library()
    if os.environ.get("RECFILE_SHARED"):
        library = [f"-L{folder}", "-lrecfile"]
    else:
        library = [f"{folder}/librecfile.a", "-Wl,--exclude-libs,ALL"]
    command = [
        *shlex.split(os.environ.get("CC", "cc")), "-std=c11", "-O2", "-fPIC", "-shared", "-Wall", "-Wextra",
        "-Wno-cast-function-type", *shlex.split(os.environ.get("CFLAGS", "")),
        f"-I{sysconfig.get_path('include')}", f"-I{include}", "-o", str(to), str(PACKAGE / "_recfile.c"), *library,
    ]
    if subprocess.run(command).returncode != 0:
        sys.exit("recfile: the C part of the package wasn't built")


def find_library():
    """The folders of the C library's headers and of the library."""
    prefix = os.environ.get("RECFILE_PREFIX")
    if prefix:
        return f"{prefix}/include", f"{prefix}/lib"
    try:
        return pkg_config("includedir"), pkg_config("libdir")
    except (OSError, subprocess.CalledProcessError):
        sys.exit("recfile: the C library isn't there: set RECFILE_PREFIX to the folder that ./install was given, or "
                 "PKG_CONFIG_PATH to its lib/pkgconfig")


def pkg_config(variable):
    words = ["pkg-config", f"--variable={variable}", "recfile"]
    return subprocess.run(words, check=True, capture_output=True, text=True).stdout.strip()
