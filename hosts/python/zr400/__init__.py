"""The proved 400ZR line coder for Python: standard library only.

    import zr400

    capture = zr400.code(2, 7, information, parity)        # N = 2 super frames, FEC blocks numbered from 7 on
    reading = zr400.read(2, 7, capture)                    # .information .parity .repaired
    words = zr400.edit(2, 4711, bits, parity_of_the_block, capture)    # in place; the words that were written

    zr400.pack("monday.zr", [("information", information), ("parity", parity), ("capture", "capture.bin")])
    for entry in zr400.contents("monday.zr"):              # .number .kind .offset .length .body
        print(entry.kind, entry.body[:16].hex())

Numbers and buffers are those of document 01 (the scope); capture files are those of document 02, M-100. A buffer is any object with contiguous bytes: bytes, bytearray,
memoryview, array, mmap or a numpy array. It is lent as it stands and never copied into the library. An output buffer may be lent too;
where none is, a bytearray of the right length is made and returned. It must hold plain bytes (TypeError, as for what cannot be lent)
and share no memory with another buffer of the call (ValueError). Bits are packed first bit in the top bit of the first byte.
A list of a call for capture files holds unsigned numbers of 64 bits, as array("Q") does.

A call that the coder refuses raises `Refused`, and then no byte of any buffer has changed.

The library is looked for at the first call: beside the package, as the wheel has it, and in hosts/out, where the script
hosts/build makes it; or in the folder that the environment variable ZR400_OUT names. On x86-64 Linux it is loaded into this process.
On other machines a worker process runs it under an emulator, qemu-x86_64, over the C library of the Rattle kit; that and the kit's command rt
must be on the PATH. The answers are the same; there the bytes go through a pipe. ZR400_LIBRARY may name a library to be loaded in any case, and ZR400_WORKER a worker
program to be used in any case.

An interrupted call (Ctrl-C) has changed either no byte of its outputs or all that it would have changed. A forked child may call,
whatever the threads of its parent were at. A thread that calls needs a stack of 512 KiB; one that was made with less gets a RuntimeError.
With a worker, a signal handler must not call while a call is made.
"""

import array
import itertools
import operator
import os
import reprlib
from typing import Any, Dict, Iterable, List, NamedTuple, Optional, Sequence, Sized, SupportsIndex, Tuple, Type, TypeVar, Union, overload

from . import _files, _library
from ._library import Lent as _Lent

__all__ = [
    "Contents", "Entry", "KINDS", "MOST_ENTRIES", "PLACES", "Reading", "Refused", "Run", "Table", "archive_read", "archive_write",
    "capture_length", "code", "contents", "edit", "groups_length", "head_length", "information", "information_length", "map_window",
    "pack", "parity_length", "read", "run", "runs", "unmap_window", "window_length", "words",
]

__version__ = _library.version()

PLACES = 10220
"""The places of an envelope."""

KINDS = ("information", "parity", "capture")
"""The kinds of bodies in a capture file; in its table they are the numbers 1, 2 and 3."""

MOST_ENTRIES = 32
"""The most bodies of a capture file, and the numbers in each list that reading one fills."""

_BLOCK_BYTES = 30583
_BLOCK_PARITY_BYTES = 2048
_CLIENT_BYTES = 33
_LIST_LENGTH = 145
_MOST_HEAD_BYTES = 306

Buffer = Any
"""An object with contiguous bytes: bytes, bytearray, memoryview, array, mmap, numpy array."""

Path = Union[str, bytes, "os.PathLike[str]", "os.PathLike[bytes]"]

_Output = TypeVar("_Output", bound=Sized)

# Document 01, section "Numbers handed back", and document 02: the sentence, and what the place counts.
_SENTENCES = {
    1: ("a number is outside its stated set", ""),
    2: ("a buffer's length is not the stated one", "buffer"),
    3: ("a spare bit is not zero", "buffer"),
    4: ("reading: a word beyond repair", "word"),
    5: ("reading: a filler word not zero after repair", "word"),
    6: ("reading: MBAS not the expected number", "FEC block"),
    7: ("reading: CRC wrong", "FEC block"),
    8: ("reading: pad not zero", "super frame"),
    9: ("edit: a word to be listed fails a check", "word"),
    10: ("archive: fewer than 16 bytes, or the first bytes differ", ""),
    11: ("archive: count missing or outside 1..32, or a kind outside 1..3 in a whole entry", "entry"),
    12: ("archive: an entry cut off, or an offset or the end not where the rule puts it", "entry"),
}
_FROM_ONE = ("buffer", "entry")
"""What is counted from 1: there place 0 is none of them, and is not told."""


class _Told(NamedTuple):
    """What a refusal can tell of a buffer of its call."""

    name: str
    title: str
    length: int
    wanted: int
    items: str


class Refused(ValueError):
    """The coder refused a call. `number`, `place` and `sentence` are those of the documents' table. Buffers count from 1 in the order in which
    the documents name them, and entries from 1; 11 at place 0 speaks of the count.

    For numbers 2 and 3 `buffer` is the parameter of the buffer at the place. For number 2 `length` and `wanted` are its bytes and the bytes that
    are wanted, or the numbers of a list, and the message tells of every wrong buffer. For other numbers they are None.
    """

    def __init__(self, number: int, place: int = 0, lent: Sequence[_Told] = ()) -> None:
        sentence, unit = _SENTENCES.get(number, ("a number that this module does not know", "place"))
        at = f" at {unit} {place}" if unit and (place or unit not in _FROM_ONE) else ""
        self.number = number
        self.place = place
        self.sentence = sentence
        self.buffer: Optional[str] = None
        self.length: Optional[int] = None
        self.wanted: Optional[int] = None
        if unit == "buffer" and 1 <= place <= len(lent):
            fault = lent[place - 1]
            at += f", the {fault.title}"
            self.buffer = fault.name
            if number == 2:
                self.length, self.wanted = fault.length, fault.wanted
        wrong = [b for b in lent if number == 2 and b.length != b.wanted]
        told = "; ".join(f"{b.name} has {b.length} {b.items}, and {b.wanted} are wanted" for b in wrong)
        super().__init__(f"refused {number}{at}: {sentence}{': ' if told else ''}{told}")

    def __reduce__(self) -> Tuple[Any, ...]:
        return _refused_again, (type(self), self.args, self.__dict__)


def _refused_again(kind: Type["Refused"], args: Tuple[Any, ...], known: Dict[str, Any]) -> "Refused":
    """A refusal as it was, of a kind whose own beginning may ask for something else."""
    refused = kind.__new__(kind, *args)
    refused.args = args
    refused.__dict__.update(known)
    return refused


class Run(NamedTuple):
    """A longest stretch of places of one kind."""

    kind: str
    """'data' or 'stuff'."""
    last: int
    """The last place of the run."""


class Reading(NamedTuple):
    """What a capture was coded from."""

    information: Buffer
    parity: Buffer
    repaired: int
    """The number of words whose nine checks were not zero."""


class Table(NamedTuple):
    """The table of a capture file: three lists, whose first `count` numbers are its entries."""

    kinds: Buffer
    offsets: Buffer
    lengths: Buffer
    count: int


class Entry(NamedTuple):
    """A body of a capture file."""

    number: int
    """Counted from 1."""
    kind: str
    """'information', 'parity' or 'capture'."""
    offset: int
    length: int
    body: memoryview
    """The bytes in the file itself, mapped and not copied; they cannot be written."""


class Contents(Tuple[Entry, ...]):
    """The entries of a capture file. The file is mapped as long as there is a body, or anything that was made of one without a copy.

    `close`, and leaving a `with` statement, releases the bodies: after that they cannot be read.
    """

    def close(self) -> None:
        for entry in self:
            try:
                entry.body.release()
            except BufferError:
                pass  # an array was made of it, and keeps it

    def __enter__(self) -> "Contents":
        return self

    def __exit__(self, *_: object) -> None:
        self.close()


# ---- lengths


def information_length(n: SupportsIndex) -> int:
    """The bytes of information of N super frames."""
    (n,) = _whole(n=n)
    return 152915 * n


def parity_length(n: SupportsIndex) -> int:
    """The bytes of parity of N super frames."""
    (n,) = _whole(n=n)
    return 10240 * n


def capture_length(n: SupportsIndex) -> int:
    """The bytes of a capture of N super frames."""
    (n,) = _whole(n=n)
    return 175616 * n + 7680


def words(n: SupportsIndex) -> int:
    """The code words of a capture of N super frames."""
    (n,) = _whole(n=n)
    return 10976 * n + 480


def window_length(n: SupportsIndex) -> int:
    """The bytes of a window of n places."""
    (n,) = _whole(n=n)
    return 257 * n // 2


def groups_length(c: SupportsIndex, f: SupportsIndex, n: SupportsIndex) -> int:
    """The bytes of the data groups in the window of n places from place f on, under the count c."""
    c, f, n = _whole(c=c, f=f, n=n)
    d = (f + n - 1) * c // PLACES - (f - 1) * c // PLACES
    return (257 * d + 1) // 2


def head_length(count: SupportsIndex) -> int:
    """The bytes before the bodies of a capture file that has so many."""
    (count,) = _whole(count=count)
    return 18 + 9 * count


# ---- the calls


def run(c: SupportsIndex, j: SupportsIndex) -> Run:
    """The kind of place j (1..10,220) under the count c (0..10,220), and the last place of its run."""
    (number, kind, last), _ = _library.call(_library.RUN, _whole(c=c, j=j), (), ())
    if number:
        raise Refused(number)
    return Run("data" if kind else "stuff", last)


def runs(c: SupportsIndex, j: SupportsIndex) -> int:
    """How many runs there are from place j to 10,220; what is left of j's own run counts as one."""
    return _granted(_library.RUNS, _whole(c=c, j=j))


@overload
def map_window(c: SupportsIndex, f: SupportsIndex, n: SupportsIndex, groups: Buffer, window: None = None) -> bytearray: ...
@overload
def map_window(c: SupportsIndex, f: SupportsIndex, n: SupportsIndex, groups: Buffer, window: _Output) -> _Output: ...
def map_window(
    c: SupportsIndex, f: SupportsIndex, n: SupportsIndex, groups: Buffer, window: Optional[Buffer] = None
) -> Buffer:
    """Puts the data groups at their places in a window of n places (even) from place f (odd) on; stuff is zero.

    Returns the window, 257 n / 2 bytes. The groups are ceil(128.5 d) bytes for d data places (`groups_length`).
    """
    c, f, n = _whole(c=c, f=f, n=n)
    if window is None:
        window = bytearray(window_length(n) if _is_window(c, f, n) else 0)
    taken = _Lent("groups", groups, groups_length(c, f, n))
    _granted(_library.MAP, (c, f, n), (taken,), (_Lent("window", window, window_length(n)),))
    return window


@overload
def unmap_window(c: SupportsIndex, f: SupportsIndex, n: SupportsIndex, window: Buffer, groups: None = None) -> bytearray: ...
@overload
def unmap_window(c: SupportsIndex, f: SupportsIndex, n: SupportsIndex, window: Buffer, groups: _Output) -> _Output: ...
def unmap_window(
    c: SupportsIndex, f: SupportsIndex, n: SupportsIndex, window: Buffer, groups: Optional[Buffer] = None
) -> Buffer:
    """Takes the data groups out of a window and ignores stuff. Returns the groups."""
    c, f, n = _whole(c=c, f=f, n=n)
    if groups is None:
        groups = bytearray(groups_length(c, f, n) if _is_window(c, f, n) else 0)
    taken = _Lent("window", window, window_length(n))
    _granted(_library.UNMAP, (c, f, n), (taken,), (_Lent("groups", groups, groups_length(c, f, n)),))
    return groups


def information(n: SupportsIndex, t: SupportsIndex, info: Buffer) -> memoryview:
    """The information of FEC block t (0..5 N - 1): that part of the lent buffer itself, 30,583 bytes, no copy."""
    n, t = _whole(n=n, t=t)
    _granted(_library.INFORMATION, (n, t), (_Lent("info", info, information_length(n), title="information"),))
    return memoryview(info).cast("B")[_BLOCK_BYTES * t : _BLOCK_BYTES * (t + 1)]


@overload
def code(n: SupportsIndex, m0: SupportsIndex, information: Buffer, parity: Buffer, capture: None = None) -> bytearray: ...
@overload
def code(n: SupportsIndex, m0: SupportsIndex, information: Buffer, parity: Buffer, capture: _Output) -> _Output: ...
def code(
    n: SupportsIndex, m0: SupportsIndex, information: Buffer, parity: Buffer, capture: Optional[Buffer] = None
) -> Buffer:
    """Codes N super frames (1..8), whose FEC blocks are numbered from m0 (0..127) on. Returns the capture."""
    n, m0 = _whole(n=n, m0=m0)
    if capture is None:
        capture = bytearray(capture_length(n) if _is_size(n) else 0)
    taken = _Lent("information", information, information_length(n)), _Lent("parity", parity, parity_length(n))
    _granted(_library.CODE, (n, m0), taken, (_Lent("capture", capture, capture_length(n)),))
    return capture


def read(
    n: SupportsIndex, m0: SupportsIndex, capture: Buffer, information: Optional[Buffer] = None, parity: Optional[Buffer] = None
) -> Reading:
    """Reads a capture back that was coded with m0, repairing one flipped bit in each word. The capture itself is not changed."""
    n, m0 = _whole(n=n, m0=m0)
    if information is None:
        information = bytearray(information_length(n) if _is_size(n) else 0)
    if parity is None:
        parity = bytearray(parity_length(n) if _is_size(n) else 0)
    given = _Lent("information", information, information_length(n)), _Lent("parity", parity, parity_length(n))
    repaired = _granted(_library.READ, (n, m0), (_Lent("capture", capture, capture_length(n)),), given)
    return Reading(information, parity, repaired)


def edit(n: SupportsIndex, block: SupportsIndex, bits: Buffer, parity: Buffer, capture: Buffer) -> List[int]:
    """Replaces client block `block` (0..4,760 N - 1) and the parity of its FEC block in the capture, in place.

    `bits` is 33 bytes: 257 bits and seven zero bits; `parity` is 2,048 bytes. Returns the numbers of the words that were
    written, rising; the other words are as before, whatever they hold.
    """
    n, block = _whole(n=n, block=block)
    listed = array.array("Q", bytes(8 * _LIST_LENGTH))
    taken = _Lent("bits", bits, _CLIENT_BYTES, title="client block"), _Lent("parity", parity, _BLOCK_PARITY_BYTES)
    given = _Lent("capture", capture, capture_length(n)), _Lent("list", listed, _LIST_LENGTH, is_list=True)
    count = _granted(_library.EDIT, (n, block), taken, given)
    return listed[:count].tolist()


@overload
def archive_write(
    count: SupportsIndex, kinds: Iterable[SupportsIndex], lengths: Iterable[SupportsIndex], head: None = None
) -> bytearray: ...
@overload
def archive_write(
    count: SupportsIndex, kinds: Iterable[SupportsIndex], lengths: Iterable[SupportsIndex], head: _Output
) -> _Output: ...
def archive_write(
    count: SupportsIndex, kinds: Iterable[SupportsIndex], lengths: Iterable[SupportsIndex], head: Optional[Buffer] = None
) -> Buffer:
    """Makes the head of a capture file whose `count` bodies (1..32) have these kinds (1..3) and lengths (at most 2^32 - 1).

    Returns the head, 18 + 9 count bytes. The bodies are to stand behind it in this order. No body may begin beyond 2^32 - 1; the last may
    end there. `pack` does all this with files.
    """
    (count,) = _whole(count=count)
    if head is None:
        head = bytearray(head_length(count) if 1 <= count <= MOST_ENTRIES else 0)
    taken = [_Lent(name, _listed(name, given), count, is_list=True) for name, given in (("kinds", kinds), ("lengths", lengths))]
    _granted(_library.ARCHIVE_WRITE, (count,), taken, (_Lent("head", head, head_length(count)),))
    return head


def archive_read(
    size: SupportsIndex,
    first: Buffer,
    kinds: Optional[Buffer] = None,
    offsets: Optional[Buffer] = None,
    lengths: Optional[Buffer] = None,
) -> Table:
    """Opens the capture file of `size` bytes by its first 306 bytes, or by all where it has fewer, and lists its table.

    The lists have 32 numbers each; where none is lent, it is made. `contents` does all this with a file.
    """
    (size,) = _whole(size=size)
    lists = [array.array("Q", bytes(8 * MOST_ENTRIES)) if lent is None else lent for lent in (kinds, offsets, lengths)]
    given = [_Lent(name, lent, MOST_ENTRIES, is_list=True) for name, lent in zip(("kinds", "offsets", "lengths"), lists)]
    taken = _Lent("first", first, min(size, _MOST_HEAD_BYTES), title="first bytes")
    count = _granted(_library.ARCHIVE_READ, (size,), (taken,), given)
    return Table(*lists, count)


# ---- capture files


def pack(path: Path, bodies: Iterable[Tuple[Union[str, SupportsIndex], Any]], *, replace: bool = False) -> None:
    """Writes a capture file of bodies, pairs of a kind and a body, in their order.

    A kind is 'information', 'parity' or 'capture' (or 1, 2 or 3). A body is a buffer, or the name of a file (str or os.PathLike), which is copied
    in parts and never held whole. One that is cut off or grows meanwhile is an OSError that says so.

    The file is written beside its name as a hidden `.zr-..`, synced, and has its name when it is whole; where anything fails, nothing is
    left. What is there already stays (FileExistsError), unless `replace` is true: then the name gets the new file in one step, and a link is
    replaced, not followed. Where the coder refuses the kinds and lengths (`Refused`, number 1), nothing is written.
    """
    kinds: List[int] = []
    taken: List[_files.Body] = []
    try:
        for kind, body in bodies:
            kinds.append(_kind_number(kind))
            taken.append(_files.body_of(f"body {len(kinds)}", body))
        head = archive_write(len(taken), kinds, [body.length for body in taken])
        parts = itertools.chain((head,), *(body.parts() for body in taken))
        _files.write_whole(os.fsdecode(path), parts, replace)
    finally:
        for body in taken:
            body.end()


def contents(path: Path) -> Contents:
    """The bodies of a capture file, each with its number, kind, offset, length and bytes.

    Only the first 306 bytes are read, and the size. Then the file is mapped: a body is a view of the file itself, of any length, and nothing is
    copied. A file that the coder refuses is `Refused`, with number 10, 11 or 12 and the place.

    The size is that at opening. If the file is cut off while it is mapped, a body that is read behind the new end ends the whole program
    by the signal SIGBUS, as with every memory map; so what is still used should be replaced by a new file, as `pack` does, and not cut.
    """
    with _files.open_plain(os.fsdecode(path)) as file:
        size = os.fstat(file.fileno()).st_size
        table = archive_read(size, _files.first_bytes(file, min(size, _MOST_HEAD_BYTES)))
        whole = _files.mapped(file, size)
    found = zip(range(1, table.count + 1), table.kinds, table.offsets, table.lengths)
    return Contents(Entry(e, KINDS[kind - 1], offset, length, whole[offset : offset + length]) for e, kind, offset, length in found)


def _kind_number(kind: Union[str, SupportsIndex]) -> int:
    if not isinstance(kind, str):
        return _whole(kind=kind)[0]
    if kind not in KINDS:
        raise ValueError(f"kind must be 'information', 'parity' or 'capture', and is {reprlib.repr(kind)}")
    return KINDS.index(kind) + 1


def _listed(name: str, numbers: Iterable[SupportsIndex]) -> Buffer:
    """A list that is read: where it is one, it is lent as it stands, else copied. A number of no 64 bits is outside its set as the last one is."""
    if _library.is_list(numbers):
        return numbers
    try:
        whole = [operator.index(number) for number in numbers]
    except TypeError:
        raise TypeError(f"{name} must be whole numbers, and is {reprlib.repr(numbers)}") from None
    return array.array("Q", [number if 0 <= number < 1 << 64 else (1 << 64) - 1 for number in whole])


def _whole(**numbers: SupportsIndex) -> List[int]:
    """The numbers as Python's own, whose sums and products are exact; those of numpy may wrap."""
    whole = []
    for name, number in numbers.items():
        try:
            whole.append(operator.index(number))
        except TypeError:
            raise TypeError(f"{name} must be a whole number, and is {reprlib.repr(number)}") from None
    return whole


def _is_size(n: int) -> bool:
    return 1 <= n <= 8


def _is_window(c: int, f: int, n: int) -> bool:
    return 0 <= c <= PLACES and f >= 1 and n >= 0 and f + n - 1 <= PLACES


def _granted(which: int, numbers: Sequence[int], inputs: Sequence[_Lent] = (), outputs: Sequence[_Lent] = ()) -> int:
    """The count of a call, or its refusal."""
    (number, place, count), lengths = _library.call(which, numbers, inputs, outputs)
    if number:
        lent = zip((*inputs, *outputs), lengths)
        raise Refused(number, place, [_told_of(b, length) for b, length in lent])
    return count


def _told_of(lent: _Lent, length: int) -> _Told:
    return _Told(lent.name, lent.title or lent.name, length, lent.wanted, "numbers" if lent.is_list else "bytes")
