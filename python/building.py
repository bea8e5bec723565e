"""Makes the package's wheel and its source archive, for pip. Both carry the built library, and the lab's
modules.

The library is the one that stands here already, that REPLSET_LIBRARY names, or that of this checkout, which
is built where it isn't yet (that needs the kit).
"""
from __future__ import annotations

import base64
import hashlib
import io
import os
import subprocess
import sys
import tarfile
import zipfile
from pathlib import Path
from typing import Dict, Iterator, Optional, Tuple

NAME, VERSION = "replset", "1.0"
HERE = Path(__file__).resolve().parent
LIBRARY = "libreplset.so"
#: What makes pages and tests of the lab is for a checkout.
LEFT_OUT = ("tests", "__pycache__", "check", "refresh", "cookbook.py", "manual.py", "mypy.ini")

METADATA = f"""\
Metadata-Version: 2.1
Name: {NAME}
Version: {VERSION}
Summary: A MongoDB replica set inside of a process, to be stepped, looked at and copied
Requires-Python: >=3.9
"""
WHEEL = "Wheel-Version: 1.0\nGenerator: replset\nRoot-Is-Purelib: false\nTag: py3-none-linux_x86_64\n"
ENTRY_POINTS = "[pytest11]\nreplset = replset.testing.plugin\n"

Settings = Optional[Dict[str, object]]


def build_wheel(wheel_directory: str, config_settings: Settings = None, metadata_directory: Optional[str] = None) -> str:
    """Makes the wheel, and gives its name."""
    name, info = f"{NAME}-{VERSION}-py3-none-linux_x86_64.whl", f"{NAME}-{VERSION}.dist-info"
    files = dict(_package())
    files[f"{info}/METADATA"] = METADATA.encode()
    files[f"{info}/WHEEL"] = WHEEL.encode()
    files[f"{info}/entry_points.txt"] = ENTRY_POINTS.encode()
    record = "".join(f"{path},sha256={_sum(content)},{len(content)}\n" for path, content in files.items())
    files[f"{info}/RECORD"] = f"{record}{info}/RECORD,,\n".encode()
    with zipfile.ZipFile(os.path.join(wheel_directory, name), "w", zipfile.ZIP_DEFLATED) as wheel:
        for path, content in files.items():
            wheel.writestr(path, content)
    return name


def build_sdist(sdist_directory: str, config_settings: Settings = None) -> str:
    """Makes the source archive, and gives its name."""
    base = f"{NAME}-{VERSION}"
    files = {"PKG-INFO": METADATA.encode(), **dict(_package())}
    files.update({name: (HERE / name).read_bytes() for name in ("pyproject.toml", "building.py")})
    with tarfile.open(os.path.join(sdist_directory, f"{base}.tar.gz"), "w:gz") as archive:
        for path, content in files.items():
            entry = tarfile.TarInfo(f"{base}/{path}")
            entry.size = len(content)
            archive.addfile(entry, io.BytesIO(content))
    return f"{base}.tar.gz"


def _package() -> Iterator[Tuple[str, bytes]]:
    """The files of the package, those of the lab among them."""
    lab = HERE.parent / "tools" / "lab"
    yield from _files(HERE / NAME, HERE)
    if lab.is_dir():
        yield from ((f"{NAME}/{path}", content) for path, content in _files(lab, lab.parent) if path != "lab/__init__.py")
    yield f"{NAME}/{LIBRARY}", _library().read_bytes()


def _files(top: Path, beside: Path) -> Iterator[Tuple[str, bytes]]:
    """The files below a folder that a package carries, by their paths from another one."""
    for folder, folders, names in os.walk(top):
        folders[:] = sorted(set(folders) - set(LEFT_OUT))
        for name in sorted(set(names) - {*LEFT_OUT, LIBRARY}):
            path = Path(folder) / name
            yield str(path.relative_to(beside)), path.read_bytes()


def _library() -> Path:
    named = os.environ.get("REPLSET_LIBRARY")
    built = HERE.parent / "build" / LIBRARY
    for place in ([Path(named)] if named else [HERE / NAME / LIBRARY, built]):
        if place.is_file():
            return place
    builder = HERE.parent / "tools" / "build_library"
    if named or not builder.is_file():
        sys.exit(f"{NAME}: there is no {LIBRARY} here, and nothing that builds one")
    built.parent.mkdir(exist_ok=True)
    subprocess.run([str(builder), str(built)], check=True)
    return built


def _sum(content: bytes) -> str:
    return base64.urlsafe_b64encode(hashlib.sha256(content).digest()).rstrip(b"=").decode()
