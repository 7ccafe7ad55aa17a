# SPDX-License-Identifier: MIT OR Apache-2.0
"""Builds the wheel of the module, as PEP 517 asks: `pip wheel python/` and `pip install python/` call this.

The wheel holds the module and the shared library that it calls. The library is looked for in the folder that
GIX_INDEX_LIB names, as `c/install PREFIX` makes it at PREFIX/lib. The same files give the same bytes. SOURCE_DATE_EPOCH
is the time of the files in the wheel, by default the first that a zip file can have.
"""
import base64
import hashlib
import os
import pathlib
import platform
import re
import time
import zipfile

HERE = pathlib.Path(__file__).resolve().parent
NAME, LICENSES = "gix_index", ("LICENSE-MIT", "LICENSE-APACHE", "NOTICE")
# The first second that a zip file can have: 1980-01-01.
FIRST = 315532800


def version():
    """Returns the version of the module."""
    text = (HERE / NAME / "_library.py").read_text(encoding="utf-8")
    return re.search(r'^VERSION = "(.*)"$', text, re.MULTILINE)[1]


def shared_library():
    """Returns the path of the shared library. Raises FileNotFoundError if GIX_INDEX_LIB names no folder that has it."""
    file = pathlib.Path(os.environ.get("GIX_INDEX_LIB", ""), f"libgix_index.so.{version().partition('.')[0]}")
    if not os.environ.get("GIX_INDEX_LIB") or not file.is_file():
        raise FileNotFoundError(f"GIX_INDEX_LIB names no folder with {file.name}: `c/install PREFIX` makes PREFIX/lib")
    return file


def tag(library):
    """Returns the wheel's tag: any Python 3, and the least version of glibc that has all that the library asks for."""
    asked = [(int(major), int(minor)) for major, minor in re.findall(rb"\0GLIBC_(\d+)\.(\d+)", library)]
    major, minor = max(asked, default=(2, 5))
    return f"py3-none-manylinux_{major}_{minor}_{platform.machine()}"


def metadata():
    """Returns the text of METADATA."""
    readme = HERE / "README.md"
    head = (
        "Metadata-Version: 2.1", f"Name: {NAME}", f"Version: {version()}",
        "Summary: The git index, read and written by functions that are proved to meet their contracts",
        "License: MIT OR Apache-2.0", "Requires-Python: >=3.8", "Description-Content-Type: text/markdown",
    )
    return "\n".join(head) + "\n\n" + (readme.read_text(encoding="utf-8") if readme.is_file() else "")


def parts(library):
    """Yields the name and the bytes of each file of the wheel but RECORD, which lists them."""
    module = (file for file in (HERE / NAME).iterdir() if file.suffix == ".py" or file.name == "py.typed")
    for file in sorted(module):
        yield f"{NAME}/{file.name}", file.read_bytes()
    yield f"{NAME}/{library.name}", library.read_bytes()
    info = f"{NAME}-{version()}.dist-info"
    for name in LICENSES:
        # (NOTICE is only above this folder: a copy of the folder by itself has none)
        found = next((folder / name for folder in (HERE, HERE.parent) if (folder / name).is_file()), None)
        if found:
            yield f"{info}/{name}", found.read_bytes()
    yield f"{info}/METADATA", metadata().encode()
    wheel = f"Wheel-Version: 1.0\nGenerator: {NAME}\nRoot-Is-Purelib: false\nTag: {tag(library.read_bytes())}\n"
    yield f"{info}/WHEEL", wheel.encode()


def record_line(name, data):
    """Returns the line of RECORD for a file."""
    digest = base64.urlsafe_b64encode(hashlib.sha256(data).digest()).rstrip(b"=").decode()
    return f"{name},sha256={digest},{len(data)}"


def build_wheel(wheel_directory, config_settings=None, metadata_directory=None):
    """Writes the wheel into the directory, and returns its name."""
    library = shared_library()
    files = dict(parts(library))
    record = f"{NAME}-{version()}.dist-info/RECORD"
    lines = [*(record_line(name, data) for name, data in files.items()), f"{record},,"]
    files[record] = "".join(f"{line}\n" for line in lines).encode()
    moment = time.gmtime(max(int(os.environ.get("SOURCE_DATE_EPOCH", FIRST)), FIRST))
    made = f"{NAME}-{version()}-{tag(library.read_bytes())}.whl"
    with zipfile.ZipFile(pathlib.Path(wheel_directory, made), "w", zipfile.ZIP_DEFLATED) as wheel:
        for name, data in files.items():
            info = zipfile.ZipInfo(name, moment[:6])
            info.compress_type = zipfile.ZIP_DEFLATED
            info.external_attr = (0o100755 if name.endswith(library.name) else 0o100644) << 16
            wheel.writestr(info, data)
    return made
