"""What the tests share: the second program's inputs and digests, the worker, and a stand-in for it."""

import os
import select
import shutil
import signal
import subprocess
import sys
import tempfile
import warnings
from unittest import mock

HERE = os.path.dirname(os.path.abspath(__file__))
PYTHON = os.path.dirname(HERE)
REPOSITORY = os.path.dirname(os.path.dirname(PYTHON))
sys.path.insert(0, PYTHON)

import zr400  # noqa: E402
from zr400 import _library  # noqa: E402

try:
    import numpy
except ImportError:
    numpy = None

OUT = os.path.join(REPOSITORY, "hosts", "out")
WORKER = os.environ.get("ZR400_WORKER") or os.path.join(os.environ.get("ZR400_OUT") or OUT, "zr400-worker")
MINUTE = 60
"""How long a test waits for what must come. It is reached only where something is wrong."""


class Generator:
    """xorshift64*, as the second program makes its inputs."""

    def __init__(self, seed):
        self.x = seed

    def number(self):
        x = self.x
        x ^= x >> 12
        x = (x ^ x << 25) & 0xFFFFFFFFFFFFFFFF
        x ^= x >> 27
        self.x = x
        return x * 0x2545F4914F6CDD1D & 0xFFFFFFFFFFFFFFFF

    def bytes(self, length):
        return bytearray(self.number() >> 56 for _ in range(length))


def seeded(seed, length):
    return Generator(seed).bytes(length)


def digest(data):
    """FNV-1a, 64 bits, as the second program prints it."""
    value = 0xCBF29CE484222325
    for byte in bytes(data):
        value = (value ^ byte) * 0x100000001B3 & 0xFFFFFFFFFFFFFFFF
    return f"{value:016x}"


def digest_of_list(listed):
    """The list of an edit, what it held before still standing after the listed words."""
    before = Generator(996)
    whole = [before.number() for _ in range(145)]
    whole[: len(listed)] = listed
    return digest(b"".join(number.to_bytes(8, "big") for number in whole))


def text_of(*path):
    with open(os.path.join(REPOSITORY, *path), encoding="ascii") as text:
        return text.read().splitlines()


def lines_of(program):
    return set(text_of("crates", program, "stdout"))


def refusal(call):
    """The answer of a call that must be refused, in the second program's words."""
    try:
        call()
    except zr400.Refused as refused:
        return f"number {refused.number} place {refused.place} count 0"
    return "granted"


def flip(capture, w, bit):
    capture[128 * (w // 8) + 8 * (bit // 8) + w % 8] ^= 0x80 >> bit % 8


_coded = {}


def coded(n):
    """Information, parity and capture of the second program's example with N super frames; m0 is 7 N."""
    if n not in _coded:
        generator = Generator(100 + n)
        information = bytes(generator.bytes(zr400.information_length(n)))
        parity = bytes(generator.bytes(zr400.parity_length(n)))
        _coded[n] = information, parity, bytes(zr400.code(n, 7 * n, information, parity))
    return _coded[n]


def use(test, library):
    """For the length of the test every call goes to this library."""
    patch = mock.patch.object(_library, "_loaded", library)
    patch.start()
    test.addCleanup(patch.stop)
    if isinstance(library, _library.Worker):
        test.addCleanup(library.end)
    return library


def use_worker(test):
    """The worker of hosts/out, whichever way the other tests go."""
    if not os.path.exists(WORKER):
        test.skipTest("there is no zr400-worker")
    return use(test, _library.Worker(_library.command(WORKER)))


def folder_for(test):
    folder = tempfile.mkdtemp()
    test.addCleanup(shutil.rmtree, folder)
    return folder


def python(*words, interpreter=sys.executable, environment=None, **options):
    """Runs a Python program that must end within the minute."""
    said = dict(stdout=subprocess.PIPE, stderr=subprocess.STDOUT, universal_newlines=True, timeout=MINUTE)
    return subprocess.run([interpreter, *words], env=environment, **{**said, **options})


def forked(work):
    """The status of a child in which `work` is done: 0 where it answered True. A child that hangs is ended by its alarm."""
    with warnings.catch_warnings():
        warnings.simplefilter("ignore", DeprecationWarning)  # newer Pythons warn of a fork beside threads, which is what is tried
        child = os.fork()
    if child == 0:
        status = 1
        try:
            signal.signal(signal.SIGALRM, signal.SIG_DFL)
            signal.alarm(MINUTE)
            status = 0 if work() else 2
        finally:
            os._exit(status)
    return os.waitpid(child, 0)[1]


class StandIn(_library.Worker):
    """A worker that does as it is told. Each plan is for one start of it, and has a step for each call of that start:

    answer     the number 0, and outputs full of 0x5A; also after the last step
    die        ends when the call has begun
    cut        ends in the middle of the answer
    interrupt  interrupts the caller in the middle of the answer, and waits
    hold       waits in the middle of the call, from `wait_until_entered` to `release`; then answers
    """

    def __init__(self, test, *plans):
        self.folder = folder_for(test)
        self.pipes = {}
        for name in ("entered", "released"):
            path = os.path.join(self.folder, name)
            os.mkfifo(path)
            self.pipes[name] = os.open(path, os.O_RDWR)  # opened for both, no side waits for the other
            test.addCleanup(os.close, self.pipes[name])
        super().__init__([sys.executable, os.path.join(HERE, "stand_in.py"), self.folder, *plans])
        use(test, self)

    def starts(self):
        return len(os.listdir(os.path.join(self.folder))) - len(self.pipes)

    def wait_until_entered(self):
        return select.select([self.pipes["entered"]], [], [], MINUTE)[0] != []

    def release(self):
        os.write(self.pipes["released"], b".")


def is_worker():
    return isinstance(_library.library(), _library.Worker)
