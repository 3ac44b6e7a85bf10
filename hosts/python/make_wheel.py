"""Makes the wheel of the package zr400 from the files in hosts/out, which hosts/build has made before.

    python3 hosts/python/make_wheel.py FOLDER [OUT]   writes the wheel into FOLDER, removes those of other versions there, prints its path;
                                                      OUT is the folder with the library's files, hosts/out where none is named
    pip install hosts/python                          calls build_wheel (pyproject.toml)

A library that was made without proofs has the version VERSION+plain, so that none is taken for the other.

The same files give the same bytes: the zip has fixed times and modes, and its members are not compressed.
"""

import base64
import glob
import hashlib
import os
import sys
import zipfile
from typing import Any, Dict, List, NamedTuple, Optional

_HERE = os.path.dirname(os.path.abspath(__file__))
_OUT = os.path.join(os.path.dirname(_HERE), "out")
_VERSION = os.path.join(os.path.dirname(os.path.dirname(_HERE)), "VERSION")

# On Arm the package runs the worker under an emulator, so it may be installed there too.
_PLATFORMS = ("linux_x86_64", "linux_aarch64")

_METADATA = """\
Metadata-Version: 2.1
Name: zr400
Version: {version}
Summary: The proved 400ZR line coder
Requires-Python: >=3.8
Platform: Linux
Description-Content-Type: text/plain

The 400ZR line coder for Python: whole captures coded, read and edited, GMP windows mapped and unmapped, capture files packed and listed.

    import zr400
    capture = zr400.code(2, 7, information, parity)
    reading = zr400.read(2, 7, capture)

help(zr400) has the rest. On x86-64 Linux nothing else is needed. On Arm Linux an emulator, qemu-x86_64, and the Rattle kit
are needed, with the kit's command rt on the PATH: the coder runs there over the kit's C library.

The library in this wheel was made from {origin}.
"""

_WHEEL = """\
Wheel-Version: 1.0
Generator: zr400
Root-Is-Purelib: false
{tags}
"""


class Member(NamedTuple):
    """A file of the wheel."""

    name: str
    content: bytes
    mode: int = 0o644


class UnsupportedOperation(Exception):
    """The name that PEP 517 gives to what a backend does not do."""


def build_wheel(
    wheel_directory: str, config_settings: Optional[Dict[str, Any]] = None, metadata_directory: Optional[str] = None
) -> str:
    """The hook of PEP 517: writes the wheel into the folder and returns its name."""
    return _write_wheel(wheel_directory, _OUT)


def _write_wheel(folder: str, out: str) -> str:
    origin = _read(os.path.join(out, "made-from.txt")).decode("ascii").strip()
    version = _read(_VERSION, "it is at the top of the repository").decode("ascii").strip() + ("+plain" if "no proof" in origin else "")
    name = f"zr400-{version}-py3-none-{'.'.join(_PLATFORMS)}.whl"
    path = os.path.join(folder, name)
    members = _members(version, origin, out)
    members.append(_record(members, f"zr400-{version}.dist-info/RECORD"))
    # Written whole before it has its name, so that no half of a wheel is ever found.
    with zipfile.ZipFile(path + ".part", "w", zipfile.ZIP_STORED) as archive:
        for member in members:
            info = zipfile.ZipInfo(member.name, (1980, 1, 1, 0, 0, 0))
            info.create_system = 3
            info.external_attr = (0o100000 | member.mode) << 16
            archive.writestr(info, member.content)
    os.replace(path + ".part", path)
    return name


def build_sdist(sdist_directory: str, config_settings: Optional[Dict[str, Any]] = None) -> str:
    """The hook of PEP 517 that every backend has."""
    raise UnsupportedOperation("there is no source distribution: the library is proved and built in the repository")


def _members(version: str, origin: str, out: str) -> List[Member]:
    package = os.path.join(_HERE, "zr400")
    files = [Member(f"zr400/{file}", _read(os.path.join(package, file))) for file in ("__init__.py", "_files.py", "_library.py", "py.typed")]
    files.append(Member("zr400/VERSION", f"{version}\n".encode("ascii")))
    for file in ("libzr400.so", "zr400-worker"):
        files.append(Member(f"zr400/{file}", _read(os.path.join(out, file)), 0o755))
    tags = "\n".join(f"Tag: py3-none-{platform}" for platform in _PLATFORMS)
    told = f"zr400-{version}.dist-info"
    files.append(Member(f"{told}/METADATA", _METADATA.format(version=version, origin=origin).encode("ascii")))
    files.append(Member(f"{told}/WHEEL", _WHEEL.format(tags=tags).encode("ascii")))
    return files


def _read(path: str, remedy: str = "make it by the script hosts/build, in the repository itself") -> bytes:
    if not os.path.exists(path):
        raise SystemExit(f"{path} is not there: {remedy}")
    with open(path, "rb") as file:
        return file.read()


def _record(members: List[Member], name: str) -> Member:
    """What every other file holds. A file of digests has no digest of its own."""
    rows = []
    for member in members:
        digest = base64.urlsafe_b64encode(hashlib.sha256(member.content).digest()).rstrip(b"=").decode("ascii")
        rows.append(f"{member.name},sha256={digest},{len(member.content)}\n")
    return Member(name, ("".join(rows) + f"{name},,\n").encode("ascii"))


def main(words: List[str]) -> None:
    if len(words) not in (1, 2) or words[0].startswith("-"):
        raise SystemExit("usage: python3 hosts/python/make_wheel.py FOLDER [OUT]")
    folder = words[0]
    os.makedirs(folder, exist_ok=True)
    path = os.path.join(folder, _write_wheel(folder, words[-1] if len(words) == 2 else _OUT))
    for old in glob.glob(os.path.join(glob.escape(folder), "zr400-*.whl")):
        if os.path.basename(old) != os.path.basename(path):
            os.remove(old)
    print(path)


if __name__ == "__main__":
    main(sys.argv[1:])
