"""The proved program zr: proved and built where it is not there yet, or not from the files as they are now."""

import hashlib
import os
import platform
import re
import shutil
import signal
import subprocess
import sys
from typing import Iterator, List, Set

from files import ENDINGS, Failed

REPOSITORY = os.path.dirname(os.path.dirname(os.path.dirname(os.path.realpath(__file__))))
PROGRAM = os.path.join(REPOSITORY, "crates", "zr", "out", "zr")
BUILT = os.path.join(REPOSITORY, "target", "zr.built")
LOG = os.path.join(REPOSITORY, "target", "zr.log")


def version() -> str:
    with open(os.path.join(REPOSITORY, "VERSION"), encoding="utf-8") as text:
        return text.read().strip()


def crates() -> Set[str]:
    """The program's crate and all that it stands on."""
    with open(os.path.join(REPOSITORY, "crates.txt"), encoding="utf-8") as text:
        below = {m[1]: m[2].split() for m in re.finditer(r"^(\w+)[ \w]*:([^#\n]*)", text.read(), re.M)}
    taken: Set[str] = set()
    waiting = ["zr"]
    while waiting:
        crate = waiting.pop()
        if crate in below and crate not in taken:
            taken.add(crate)
            waiting += below[crate]
    return taken


def files_of(folder: str) -> Iterator[str]:
    for entry in sorted(os.scandir(folder), key=lambda e: e.name):
        if entry.is_dir(follow_symlinks=False):
            if entry.name != "out":  # what rt makes
                yield from files_of(entry.path)
        else:
            known = entry.stat(follow_symlinks=False)
            yield f"{entry.path} {known.st_size} {known.st_mtime_ns}"


def sources() -> str:
    """A digest that changes with any file that the program is made from."""
    lines = [line for crate in sorted(crates()) for line in files_of(os.path.join(REPOSITORY, "crates", crate))]
    known = os.stat(os.path.join(REPOSITORY, "crates.txt"))
    return hashlib.sha256("\n".join([f"{known.st_size} {known.st_mtime_ns}", *lines]).encode("utf-8", "surrogateescape")).hexdigest()


def built() -> str:
    """The digest of what the program was built from, where it is there."""
    try:
        with open(BUILT, encoding="utf-8") as text:
            return text.read() if os.access(PROGRAM, os.X_OK) else ""
    except (OSError, ValueError):
        return ""


def prove() -> None:
    """Has the program proved, built and run once. hosts/prove shows how far it is, and clears up after Ctrl-C, so that it is left to end by itself."""
    if shutil.which("rt") is None:
        raise Failed("the command rt is not on the PATH, and the Rattle kit is needed to prove and build zr: put the folder bin of the kit on the PATH")
    print("zr: the command is proved and built first; this takes minutes, once", file=sys.stderr, flush=True)
    process = subprocess.Popen([os.path.join(REPOSITORY, "hosts", "prove"), LOG, "run", "zr", "--", "runs", "0"], cwd=REPOSITORY, stdin=subprocess.DEVNULL, stdout=2)
    before = {number: signal.signal(number, lambda got, _: process.send_signal(got)) for number in ENDINGS}
    status = process.wait()
    for number, handler in before.items():
        signal.signal(number, handler)
    if status < 0:
        signal.signal(-status, signal.SIG_DFL)
        os.kill(os.getpid(), -status)
    if status or not os.access(PROGRAM, os.X_OK):
        raise Failed("zr is not proved, so it was not built; all that was said is in target/zr.log")


def words() -> List[str]:
    """What starts the proved program. ZR may name another one, to be used in place of it."""
    if platform.machine() != "x86_64":
        raise Failed(f"the program zr is made for x86-64, and this machine is {platform.machine()}")
    if os.environ.get("ZR"):
        return [os.path.abspath(os.environ["ZR"])]
    now = sources()
    if built() != now:
        prove()
        with open(f"{BUILT}.{os.getpid()}", "w", encoding="utf-8") as text:
            text.write(now)
        os.replace(text.name, BUILT)
    return [PROGRAM]
