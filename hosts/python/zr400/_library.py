"""The way to the library: where it is, how buffers are lent to it, and the process that runs it where it cannot be loaded."""

import _thread
import atexit
import collections
import ctypes
import fcntl
import functools
import operator
import os
import platform
import re
import resource
import shutil
import signal
import struct
import subprocess
import threading
from typing import Any, Callable, List, NamedTuple, Optional, Sequence, Tuple, Union

Answer = Tuple[int, int, int]

# The calls in the order of zr400.h: name, numbers, buffers.
CALLS = (
    ("zr400_run", 2, 0), ("zr400_runs", 2, 0), ("zr400_map", 3, 2), ("zr400_unmap", 3, 2),
    ("zr400_information", 2, 1), ("zr400_code", 2, 3), ("zr400_read", 2, 3), ("zr400_edit", 2, 4),
    ("zr400_archive_write", 1, 3), ("zr400_archive_read", 1, 4),
)
RUN, RUNS, MAP, UNMAP, INFORMATION, CODE, READ, EDIT, ARCHIVE_WRITE, ARCHIVE_READ = range(len(CALLS))

_HERE = os.path.dirname(os.path.abspath(__file__))
_HOSTS = os.path.dirname(os.path.dirname(_HERE))


class Lent(NamedTuple):
    """A buffer of a call: its parameter's name, the object, and the length that the documents state for it: in bytes, and for a list in numbers.
    Where the documents call it otherwise than the parameter, the title is their name."""

    name: str
    buffer: Any
    wanted: int
    is_list: bool = False
    title: str = ""


def call(which: int, numbers: Sequence[int], inputs: Sequence[Lent], outputs: Sequence[Lent]) -> Tuple[Answer, List[int]]:
    """The answer of the library, and the lengths of the buffers, inputs first. This is the order of the call's parameters, in which places count."""
    loans: List[Loan] = []
    try:
        for lent in inputs:
            loans.append(Loan(lent.name, lent.buffer, written=False, is_list=lent.is_list))
        for lent in outputs:
            loans.append(Loan(lent.name, lent.buffer, written=True, is_list=lent.is_list))
        _refuse_overlap(loans)
        lengths = [loan.stated for loan in loans]
        if any(x < 0 or x >= 1 << 64 for x in numbers):
            return (1, 0, 0), lengths  # outside every stated set, and no 64-bit number
        return library().call(which, numbers, loans), lengths
    finally:
        for loan in loans:
            loan.end()


# ---- buffers


class _PyBuffer(ctypes.Structure):
    """Py_buffer of the C API: the only way in the standard library to the address of read-only bytes."""

    _fields_ = [
        ("buf", ctypes.c_void_p), ("obj", ctypes.c_void_p), ("len", ctypes.c_ssize_t), ("itemsize", ctypes.c_ssize_t),
        ("readonly", ctypes.c_int), ("ndim", ctypes.c_int), ("format", ctypes.c_char_p), ("shape", ctypes.c_void_p),
        ("strides", ctypes.c_void_p), ("suboffsets", ctypes.c_void_p), ("internal", ctypes.c_void_p),
    ]


# Handles of our own: those of ctypes.pythonapi belong to the whole program, which may have told them of other types.
_api = ctypes.PyDLL(None)
_api.PyObject_GetBuffer.argtypes = [ctypes.py_object, ctypes.POINTER(_PyBuffer), ctypes.c_int]
_api.PyObject_GetBuffer.restype = ctypes.c_int
_api.PyBuffer_Release.argtypes = [ctypes.POINTER(_PyBuffer)]
_api.PyBuffer_Release.restype = None
_FULL_READ_ONLY = 0x011C  # PyBUF_FULL_RO

# A field's name in a format may be any text, and says nothing of what its bytes are.
_FIELD_NAME = re.compile(r":[^:]*:")
# Numbers, characters and raw bytes, alone or in structures and arrays; no object and no pointer, whose bytes are an address.
_PLAIN = re.compile(r"(?:[@=<>!^\s]|\(\d+(?:,\d+)*\)|\d+|T\{|\}|Z[fdg]|[?bBcsxphHiIlLqQnNefdgFDuw])*")
_BYTES = re.compile(r"[@=<>!]?[Bbc]")
# Where an item has eight bytes, these are unsigned numbers as the library reads them, low byte first.
_NUMBERS = re.compile(r"[@=<]?[LQ]")


def is_list(buffer: Any) -> bool:
    """Whether an object holds unsigned numbers of 64 bits, so that it may be lent as a list."""
    try:
        with memoryview(buffer) as view:
            return view.itemsize == 8 and _NUMBERS.fullmatch(view.format) is not None
    except (BufferError, TypeError, ValueError):
        return False


class Loan:
    """The bytes of an object, where they stand. Until the loan ends the object can be neither resized nor freed. It is held by a
    memoryview, which gives it back by itself where an interrupt left nobody to do so."""

    def __init__(self, name: str, buffer: Any, written: bool, is_list: bool = False) -> None:
        self.name = name
        self.written = written
        self.is_list = is_list
        try:
            self._view = memoryview(buffer)
        except (BufferError, TypeError, ValueError) as error:
            raise TypeError(f"{name} cannot be lent: {error}") from None
        try:
            self._refuse_form()
            self.length: int = self._view.nbytes
            self.stated: int = self.length // 8 if is_list else self.length
            self.address: int = _address(self._view) if self.length else 0
        except BaseException:
            self.end()
            raise

    def _refuse_form(self) -> None:
        form, size = self._view.format, self._view.itemsize
        if not self._view.c_contiguous:
            raise TypeError(f"{self.name} cannot be lent: its bytes do not stand one after the other")
        if self.is_list and not (size == 8 and _NUMBERS.fullmatch(form)):
            raise TypeError(f"{self.name} has items of format {form!r} and {size} bytes: a list must be unsigned numbers of 64 bits")
        if self.written and not self.is_list and not (size == 1 and _BYTES.fullmatch(form)):
            raise TypeError(f"{self.name} has items of format {form!r} and {size} bytes: an output must be plain bytes")
        if not _PLAIN.fullmatch(_FIELD_NAME.sub(" ", form)):
            raise TypeError(f"{self.name} has items of format {form!r}: objects and pointers cannot be lent as bytes")
        if self.written and self._view.readonly:
            raise TypeError(f"{self.name} cannot be lent: it is an output, and cannot be written")

    def taken(self, most: int) -> bytes:
        """A copy of its bytes, of no more than so many."""
        return ctypes.string_at(self.address, min(self.length, most)) if self.length else b""

    def content(self) -> memoryview:
        """Its bytes where they stand, whatever their form: for as long as it is lent."""
        return memoryview((ctypes.c_ubyte * self.length).from_address(self.address)).cast("B")

    def end(self) -> None:
        self._view.release()


def _in_one_step(*calls: Callable[[], object]) -> None:
    """Python raises an interrupt between two of its own steps only. Here it has none: the calls and what makes them are C, so that an
    interrupt comes before the first or after the last."""
    collections.deque(map(operator.methodcaller("__call__"), calls), maxlen=0)


def _address(view: memoryview) -> int:
    asked = _PyBuffer()
    at = ctypes.byref(asked)
    _in_one_step(functools.partial(_api.PyObject_GetBuffer, view, at, _FULL_READ_ONLY), functools.partial(_api.PyBuffer_Release, at))
    return asked.buf or 0


def _refuse_overlap(loans: Sequence[Loan]) -> None:
    """An output that shares memory with another buffer would change what the library has still to read."""
    for k, first in enumerate(loans):
        for second in loans[k + 1 :]:
            shared = min(first.address + first.length, second.address + second.length) - max(first.address, second.address)
            if (first.written or second.written) and first.length and second.length and shared > 0:
                raise ValueError(f"{first.name} and {second.name} share memory, and a buffer that is written must share none")


# ---- in this process


class _AnswerInC(ctypes.Structure):
    _fields_ = [("first", ctypes.c_uint64), ("second", ctypes.c_uint64), ("third", ctypes.c_uint64)]


class InProcess:
    """The shared library, loaded into this process."""

    def __init__(self, path: str) -> None:
        library = ctypes.CDLL(path)
        self._functions = []
        for name, numbers, buffers in CALLS:
            function = getattr(library, name)
            function.restype = _AnswerInC
            function.argtypes = [ctypes.c_uint64] * numbers + [ctypes.c_void_p, ctypes.c_size_t] * buffers
            self._functions.append(function)

    def call(self, which: int, numbers: Sequence[int], loans: Sequence[Loan]) -> Answer:
        words: List[Optional[int]] = list(numbers)
        for loan in loans:
            words += [loan.address or None, loan.stated]
        _refuse_small_stack()
        answer = self._functions[which](*words)
        return answer.first, answer.second, answer.third


STACK_BYTES = 524288
"""The stack of a thread that makes a call: ZR400_STACK_BYTES of zr400.h."""


def _refuse_small_stack() -> None:
    """Where a thread's stack is too small for a call, the whole program would end without a word."""
    if threading.current_thread() is threading.main_thread():
        size = resource.getrlimit(resource.RLIMIT_STACK)[0]
    else:
        size = threading.stack_size()  # 0 where the program has not chosen one
    if 0 < size < STACK_BYTES:
        raise RuntimeError(f"a call needs a stack of {STACK_BYTES} bytes, and this thread's has {size}")


# ---- in a process of its own

# A capture of eight super frames: no stated length is greater.
_LONGEST = 175616 * 8 + 7680
_ANSWER_BYTES = 24


class Running:
    """A worker process, and the pipes to it and from it."""

    def __init__(self, command: Sequence[str]) -> None:
        its_input, self.to = _pipe()
        self.answers, its_output = _pipe()
        try:
            self.process = subprocess.Popen(command, stdin=its_input, stdout=its_output, start_new_session=True)
        except BaseException:
            self.close()
            raise
        finally:
            os.close(its_input)
            os.close(its_output)

    def exchange(self, request: memoryview, received: memoryview) -> None:
        # Asked first, as a program may have set SIGPIPE so that writing to a dead worker would end the program.
        if self.process.poll() is not None:
            raise EOFError
        at = 0
        while at < len(request):
            at += os.write(self.to, request[at:])
        at = 0
        while at < len(received):
            got = os.readv(self.answers, [received[at:]])
            if got == 0:
                raise EOFError
            at += got

    def kill(self) -> None:
        if self.process.returncode is not None:
            return  # it was waited for, and its number may be another's by now
        try:
            os.kill(self.process.pid, signal.SIGKILL)
        except ProcessLookupError:
            pass

    def end(self) -> int:
        """The status of a worker that is no longer wanted. One that goes on, though nobody speaks to it, is ended by force."""
        self.close()
        try:
            return self.process.wait(timeout=5)
        except subprocess.TimeoutExpired:
            self.kill()
            return self.process.wait()

    def close(self) -> None:
        for pipe in (self.to, self.answers):
            try:
                os.close(pipe)
            except OSError:
                pass  # the program has closed what it did not open

    def forget(self) -> None:
        """In a forked child: it is no child of this process, so nobody here shall wait for it."""
        self.close()
        self.process.returncode = 0


def _pipe() -> Tuple[int, int]:
    """Never 0, 1 or 2: where a program has closed those, what it prints would go to the worker."""
    low = os.pipe()
    first, second = (fcntl.fcntl(end, fcntl.F_DUPFD_CLOEXEC, 3) for end in low)
    for end in low:
        os.close(end)
    return first, second


class Attempt:
    """A call of the worker. It stands by itself, so that a thread may go on with it when nobody waits for it any more."""

    def __init__(self, command: Sequence[str], running: Optional[Running], request: bytes, length: int) -> None:
        self.running = running
        self.received = bytearray(length)
        self.error: Optional[BaseException] = None
        self._command = command
        self._request = request
        self._status = 0
        self._given_up = False
        self._turn = threading.Lock()
        self._at_work = threading.Lock()
        self._at_work.acquire()

    def make(self) -> None:
        try:
            with self._turn:
                if not self._given_up:
                    self._make()
        except BaseException as error:
            self.error = error
        finally:
            self._at_work.release()

    def wait(self) -> None:
        with self._at_work:
            pass

    def _make(self) -> None:
        try:
            # Whenever an old worker died: no output has been touched, so the call may be made again.
            if not self._is_answered() and not self._given_up:
                self.running = Running(self._command)
                if not self._given_up and not self._is_answered():
                    raise RuntimeError(f"the zr400 worker ended before it had answered, with status {self._status}")
        except BaseException:
            self._drop()
            raise
        if self._given_up:
            self._drop()

    def _is_answered(self) -> bool:
        if self.running is None:
            return False
        try:
            self.running.exchange(memoryview(self._request), memoryview(self.received))
            return True
        except (EOFError, OSError):
            self._drop()
            return False

    def _drop(self) -> None:
        running, self.running = self.running, None
        if running is not None:
            self._status = running.end()

    def give_up(self) -> None:
        """The two sides may be out of step, so the worker ends. Where it is only being started, the thread that starts it sees to that."""
        self._given_up = True
        running = self.running
        if running is not None:
            running.kill()
        try:
            _thread.start_new_thread(self._clear, ())
        except RuntimeError:
            pass  # the interpreter ends

    def _clear(self) -> None:
        """Where the thread that was to make the call never came to it."""
        with self._turn:
            self._drop()


class Worker:
    """The library in a process of its own; hosts/c/worker.c says how it is spoken to.

    The process is in a session of its own, so that a Ctrl-C at the prompt is not sent to it. One that died or was left in the
    middle of a call is replaced at the next call.
    """

    def __init__(self, command: Sequence[str]) -> None:
        self._command = list(command)
        self._lock = threading.Lock()
        self._running: Optional[Running] = None
        self._attempt: Optional[Attempt] = None
        atexit.register(self.end)

    def call(self, which: int, numbers: Sequence[int], loans: Sequence[Loan]) -> Answer:
        # What is longer than every stated length is refused alike when one byte too many of it is sent.
        sent = [loan.taken(_LONGEST + 1) for loan in loans]
        head = struct.pack("<8Q", which, *numbers, *[0] * (3 - len(numbers)), *map(len, sent), *[0] * (4 - len(loans)))
        length = _ANSWER_BYTES + sum(len(part) for part, loan in zip(sent, loans) if loan.written)
        received = self._ask(b"".join([head, *sent]), length)
        number, place, count = struct.unpack_from("<3Q", received)
        if number == 0:
            _hand_over(received, [loan for loan in loans if loan.written])
        return number, place, count

    def _ask(self, request: bytes, length: int) -> bytearray:
        with self._lock:
            attempt = self._attempt = Attempt(self._command, self._running, request, length)
            try:
                self._running = None
                _make_apart(attempt)
                self._running = attempt.running
            except BaseException:
                attempt.give_up()
                raise
            finally:
                self._attempt = None
        if attempt.error is not None:
            raise attempt.error
        return attempt.received

    def end(self) -> None:
        """Ends the process by force: it keeps nothing, and another process may still hold its input open."""
        running, self._running = self._running, None
        if running is not None:
            running.kill()
            running.end()

    def forget(self) -> None:
        """In a forked child the worker stays its parent's, and the next call starts another."""
        known = {self._running, self._attempt.running if self._attempt is not None else None}
        self._running, self._attempt, self._lock = None, None, threading.Lock()
        for running in known:
            if running is not None:
                running.forget()


def _make_apart(attempt: Attempt) -> None:
    """Interrupts are raised in the main thread alone. So there another thread makes the call, and no part of starting, asking or ending
    a process is ever left half done. It is no Thread, whose own bookkeeping would swallow some of them."""
    if threading.current_thread() is not threading.main_thread():
        attempt.make()
        return
    try:
        _thread.start_new_thread(attempt.make, ())
    except RuntimeError:  # the interpreter ends, and starts no thread any more
        attempt.make()
        return
    attempt.wait()


def _hand_over(received: bytearray, outputs: Sequence[Loan]) -> None:
    """Copies what stands behind the answer into the outputs, all of it or nothing."""
    source = ctypes.addressof(ctypes.c_char.from_buffer(received)) + _ANSWER_BYTES
    copies = []
    for loan in outputs:
        copies.append(functools.partial(ctypes.memmove, loan.address, source, loan.length))
        source += loan.length
    _in_one_step(*copies)


# ---- where the library is

_Library = Union[InProcess, Worker]
_loaded: Optional[_Library] = None
_loading = threading.Lock()


def library() -> _Library:
    """The library, looked for at the first call."""
    global _loaded
    if _loaded is not None:  # without the lock, so that a signal handler may call too
        return _loaded
    with _loading:
        if _loaded is None:
            _loaded = _load()
        return _loaded


def _load() -> _Library:
    path = os.environ.get("ZR400_LIBRARY")
    if path:
        return InProcess(path)
    program = os.environ.get("ZR400_WORKER")
    if program:
        return Worker(command(os.path.abspath(program)))  # the program may go to another folder
    if is_native():
        return InProcess(_found("libzr400.so"))
    return Worker(command(_found("zr400-worker")))


def is_native() -> bool:
    """Whether this machine is one that the library is made for."""
    return platform.machine() in ("x86_64", "AMD64")


def _found(file: str) -> str:
    named = os.environ.get("ZR400_OUT")
    folders = [named] if named else [_HERE, os.path.join(_HOSTS, "out")]
    for folder in folders:
        path = os.path.abspath(os.path.join(folder, file))
        if os.path.exists(path):
            return path
    raise OSError(f"{file} is not in {' nor in '.join(folders)}: make it by the script hosts/build")


def command(program: str) -> List[str]:
    """The command that runs an x86-64 program on this machine, where need be by an emulator, over the C library of the Rattle kit."""
    if is_native():
        return [program]
    machine = platform.machine()
    rt = shutil.which("rt")
    if rt is None:
        raise OSError(
            f"zr400 is made for x86-64, and on this machine ({machine}) it needs the Rattle kit, over whose C library the coder runs: "
            "the kit's command rt is not on the PATH"
        )
    said = subprocess.run([rt, "doc"], stdout=subprocess.PIPE)
    if said.returncode != 0:
        raise OSError(f"the Rattle kit does not say where it is: {rt} doc ended with status {said.returncode}")
    guide = said.stdout.decode().strip()
    library = os.path.join(os.path.dirname(guide), "toolchain", "lib")
    emulator = shutil.which("qemu-x86_64")
    if emulator is None:
        raise OSError(f"zr400 is made for x86-64, and on this machine ({machine}) it needs an emulator of that: qemu-x86_64 is not on the PATH")
    return [emulator, os.path.join(library, "ld-linux-x86-64.so.2"), "--library-path", library, program]


def version() -> str:
    """The version, from the copy in an installed package or from the one file at the top of the repository."""
    for folder in (_HERE, os.path.dirname(_HOSTS)):
        path = os.path.join(folder, "VERSION")
        if os.path.exists(path):
            with open(path, encoding="ascii") as text:
                return text.read().strip()
    return "unknown"  # a copy of the package alone codes as well as any


# ---- forks


def _after_fork() -> None:
    """Another thread may have held a lock when this child was forked, and no thread here will ever give it back."""
    global _loading
    _loading = threading.Lock()
    if isinstance(_loaded, Worker):
        _loaded.forget()


if hasattr(os, "register_at_fork"):
    os.register_at_fork(after_in_child=_after_fork)
