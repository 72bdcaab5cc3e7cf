"""Makes the wheel of the package udsnorm, with library and program inside: what `packaging/wheel` and `pip` call.

A wheel is a zip file of the package and of what installers read (PEP 427, PEP 517). Equal files give equal wheels.
"""

import base64
import hashlib
import os
import re
import time
import zipfile
from pathlib import Path

HERE = Path(__file__).resolve().parent
TOP = HERE.parent
VERSION = (TOP / "VERSION").read_text().strip()
TAG = "py3-none-linux_x86_64"
INFORMATION = f"udsnorm-{VERSION}.dist-info"

METADATA = f"""Metadata-Version: 2.1
Name: udsnorm
Version: {VERSION}
Summary: Compares recorded UDS sessions of an ECU (ISO 14229, ISO-TP or DoCAN, ISO 15765-2), from candump logs of SocketCAN, CAN or CAN FD, for regression tests and diffs of diagnostic traces
Author: Yozhdyrga maintainers
Author-email: maintainers@users.noreply.yozhdyrga.example
License: MIT
Keywords: UDS,ISO 14229,ISO-TP,ISO 15765-2,CAN,CAN FD,candump,ASC,BLF,TRC,pcap
Classifier: Development Status :: 5 - Production/Stable
Classifier: Environment :: Console
Classifier: Framework :: Pytest
Classifier: Intended Audience :: Developers
Classifier: License :: OSI Approved :: MIT License
Classifier: Operating System :: POSIX :: Linux
Classifier: Programming Language :: Python :: 3
Classifier: Programming Language :: Python :: 3 :: Only
Classifier: Topic :: Software Development :: Testing
Classifier: Topic :: System :: Logging
Classifier: Typing :: Typed
Requires-Python: >=3.9
Description-Content-Type: text/plain

{(HERE / "README").read_text()}"""
# What README names, and what the commands on these pages copy: each comes to lie below share/doc/udsnorm of the prefix, as it lies
# in the repository.
PAGES = [TOP / "docs" / f"{name}.md" for name in ("library", "python", "tutorial", "questions", "recipes", "formats")]
SAMPLES = [*sorted((TOP / "examples").iterdir()), HERE / "examples" / "sessions.py"]
PAGES_AT = f"udsnorm-{VERSION}.data/data/share/doc/udsnorm"
# A link to a file: its words, and where that lies.
LINK = re.compile(r"\[([^][]+)\]\(([^)#\s:]+)(?:#[^)\s]*)?\)")
WHEEL = f"Wheel-Version: 1.0\nGenerator: udsnorm wheel_builder\nRoot-Is-Purelib: false\nTag: {TAG}\n"


def library_folder():
    """Where `make lib` puts the library, or what the environment says."""
    return Path(os.environ.get("UDSNORM_LIBRARY", TOP / "out" / "lib"))


def program():
    """Where `make build` puts the program, or what the environment says."""
    return Path(os.environ.get("UDSNORM_PROGRAM", TOP / "crates" / "udsnorm" / "out" / "udsnorm"))


def soname():
    return f"libudsnorm.so.{(TOP / 'library' / 'SONAME').read_text().strip()}"


def documents(paths):
    """What lies in share/doc/udsnorm of these files of the repository: names and bytes. A page has the words alone of a link to a
    file that is not there."""
    shipped = {path for file in paths for path in (file, *file.parents)} - {TOP, *TOP.parents}
    for path in paths:
        content = path.read_bytes()
        if path.suffix == ".md":
            content = LINK.sub(lambda link: link[(path.parent / link[2]).resolve() not in shipped], content.decode()).encode()
        yield str(path.relative_to(TOP)), content


def files():
    """What the wheel holds, but the list of it: names and bytes."""
    package = HERE / "udsnorm"
    for path in sorted([*package.rglob("*.py"), package / "py.typed"]):
        yield f"udsnorm/{path.relative_to(package)}", path.read_bytes()
    yield f"udsnorm/{soname()}", (library_folder() / soname()).read_bytes()
    yield "udsnorm/udsnorm", program().read_bytes()
    for name, content in documents([*PAGES, *SAMPLES]):
        yield f"{PAGES_AT}/{name}", content
    yield f"{INFORMATION}/METADATA", METADATA.encode()
    yield f"{INFORMATION}/WHEEL", WHEEL.encode()
    yield f"{INFORMATION}/LICENSE", (TOP / "LICENSE").read_bytes()


def row(name, content):
    """The line of a file in the list of the wheel."""
    digest = base64.urlsafe_b64encode(hashlib.sha256(content).digest()).rstrip(b"=").decode()
    return f"{name},sha256={digest},{len(content)}\n"


def entry(name):
    """A file of the zip, with a date that does not change from build to build."""
    date = time.gmtime(int(os.environ.get("SOURCE_DATE_EPOCH", 315532800)))[:6]
    found = zipfile.ZipInfo(name, date)
    # pip keeps that a file may be run.
    found.external_attr = (0o100755 if name == "udsnorm/udsnorm" or ".so" in name else 0o100644) << 16
    found.compress_type = zipfile.ZIP_DEFLATED
    return found


def build_wheel(wheel_directory, config_settings=None, metadata_directory=None):
    """Makes the wheel in a folder, and answers its name."""
    name = f"udsnorm-{VERSION}-{TAG}.whl"
    record = ""
    with zipfile.ZipFile(Path(wheel_directory) / name, "w") as wheel:
        for path, content in files():
            wheel.writestr(entry(path), content)
            record += row(path, content)
        wheel.writestr(entry(f"{INFORMATION}/RECORD"), f"{record}{INFORMATION}/RECORD,,\n")
    return name
