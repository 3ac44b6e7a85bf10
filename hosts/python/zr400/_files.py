"""Files: bodies that are read in parts, files that are written whole or not at all, files that are mapped."""

import contextlib
import errno
import io
import mmap
import os
import secrets
import stat
from typing import Any, Iterable, Iterator, Optional, Union

from ._library import Loan

PART = 1 << 20
"""The bytes that are read and written at a time. No more of a body in a file is ever held."""


# ---- reading


def open_plain(path: str) -> io.FileIO:
    """A plain file, open for reading. A pipe is not waited for."""
    file: io.FileIO = open(path, "rb", buffering=0, opener=lambda name, flags: os.open(name, flags | os.O_NONBLOCK))
    if not stat.S_ISREG(os.fstat(file.fileno()).st_mode):
        file.close()
        raise _no_plain_file(path)
    return file


def _no_plain_file(path: str) -> OSError:
    return OSError(errno.EINVAL, "it is no plain file", path)


def first_bytes(file: io.FileIO, length: int) -> bytes:
    """So many bytes from where the file stands."""
    taken = b""
    while len(taken) < length:
        part = file.read(length - len(taken))
        if not part:
            raise _cut_off(str(file.name), "opened", length, len(taken))
        taken += part
    return taken


def mapped(file: io.FileIO, size: int) -> memoryview:
    """The file as memory. It stays as long as a view of it does."""
    try:
        return memoryview(mmap.mmap(file.fileno(), size, access=mmap.ACCESS_READ))
    except ValueError:
        raise _cut_off(str(file.name), "opened", size, os.fstat(file.fileno()).st_size) from None


def _cut_off(path: str, done: str, length: int, left: int) -> OSError:
    return OSError(f"{path} was cut off while it was {done}: it had {length} bytes, and {left} could be read")


# ---- bodies


class Held:
    """A body in memory, lent until its end."""

    def __init__(self, name: str, buffer: Any) -> None:
        self._loan = Loan(name, buffer, written=False)
        self.length = self._loan.length

    def parts(self) -> Iterator[memoryview]:
        for at in range(0, self.length, PART):
            yield self._loan.content()[at : at + PART]

    def end(self) -> None:
        self._loan.end()


class Stored:
    """A body in a file, which is opened when it is its turn: it must then have the length that it had before."""

    def __init__(self, path: str) -> None:
        self._path = path
        self._file: Optional[io.FileIO] = None
        found = os.stat(path)
        if stat.S_ISDIR(found.st_mode):
            raise IsADirectoryError(errno.EISDIR, os.strerror(errno.EISDIR), path)
        if not stat.S_ISREG(found.st_mode):
            raise _no_plain_file(path)
        self.length = found.st_size

    def parts(self) -> Iterator[memoryview]:
        room, left = memoryview(bytearray(min(PART, self.length))), self.length
        self._file = file = open_plain(self._path)
        while left:
            got = file.readinto(room[: min(PART, left)])
            if not got:
                raise _cut_off(self._path, "packed", self.length, self.length - left)
            yield room[:got]
            left -= got
        if file.read(1):
            raise OSError(f"{self._path} grew while it was packed: it had {self.length} bytes")
        file.close()

    def end(self) -> None:
        if self._file is not None:
            self._file.close()


Body = Union[Held, Stored]


def body_of(name: str, given: Any) -> Body:
    """A body by the bytes that it is, or by the file that has them."""
    if isinstance(given, (str, os.PathLike)):
        return Stored(os.fsdecode(given))
    return Held(name, given)


# ---- writing


def write_whole(path: str, parts: Iterable[Any], replace: bool) -> None:
    """Writes a file that is there whole or not at all. What is there already stays, unless it may be replaced."""
    new = NewFile(path, replace)
    try:
        new.begin()
        for part in parts:
            new.write(part)
        new.place()
    finally:
        new.end()


@contextlib.contextmanager
def _told_of(path: str) -> Iterator[None]:
    """An error in the work on a file names the file as it was asked for."""
    try:
        yield
    except OSError as error:
        raise OSError(error.errno, error.strerror, path) from None


class NewFile:
    """A file that is written beside its name first, and is given its name when it is whole."""

    def __init__(self, path: str, replace: bool) -> None:
        self._path = path
        self._replace = replace
        self._folder = self._file = -1
        self._part = ""
        directory, self._base = os.path.split(path)
        self._directory = directory or "."
        self._old = self._refused_or_old()

    def _refused_or_old(self) -> Optional[os.stat_result]:
        """What stands under the name, if it may be replaced."""
        try:
            old = os.lstat(self._path)
        except FileNotFoundError:
            if not self._base:
                raise
            return None
        if not self._replace:
            raise FileExistsError(errno.EEXIST, os.strerror(errno.EEXIST), self._path)
        if stat.S_ISDIR(old.st_mode):
            raise IsADirectoryError(errno.EISDIR, os.strerror(errno.EISDIR), self._path)
        if not (stat.S_ISREG(old.st_mode) or stat.S_ISLNK(old.st_mode)):
            raise _no_plain_file(self._path)
        return old

    def begin(self) -> None:
        with _told_of(self._path):
            self._folder = os.open(self._directory, os.O_PATH | os.O_DIRECTORY)
            self._part = f".zr-{os.getpid()}-{secrets.token_hex(8)}"  # known first, so that an interrupt leaves no file behind
            flags = os.O_WRONLY | os.O_CREAT | os.O_EXCL
            self._file = os.open(self._part, flags, 0o600 if self._is_plain_old() else 0o666, dir_fd=self._folder)

    def _is_plain_old(self) -> bool:
        return self._old is not None and stat.S_ISREG(self._old.st_mode)

    def write(self, part: Any) -> None:
        with _told_of(self._path), memoryview(part) as data:
            at = 0
            while at < len(data):
                at += os.write(self._file, data[at:])

    def place(self) -> None:
        """The bytes are on the disk before the name is given, in one step, and the name is behind it."""
        with _told_of(self._path):
            if self._is_plain_old():
                self._open_as_before()
            os.fsync(self._file)
            if self._replace:
                os.replace(self._part, self._base, src_dir_fd=self._folder, dst_dir_fd=self._folder)
                self._part = ""
            else:
                _link_new(self._part, self._base, self._folder)
        self._sync_folder()

    def _open_as_before(self) -> None:
        """The new file is as open to others as the old one."""
        assert self._old is not None
        if (self._old.st_uid, self._old.st_gid) != (os.geteuid(), os.getegid()):
            with contextlib.suppress(PermissionError):  # it becomes ours, as a new file would be
                os.fchown(self._file, self._old.st_uid, self._old.st_gid)
        os.fchmod(self._file, stat.S_IMODE(self._old.st_mode) & 0o777)

    def _sync_folder(self) -> None:
        try:
            folder = os.open(".", os.O_RDONLY | os.O_DIRECTORY, dir_fd=self._folder)
        except OSError:
            return  # a folder that may be written and not read
        try:
            os.fsync(folder)
        except OSError as error:
            raise OSError(error.errno, f"{error.strerror}; the file is there, but perhaps not on the disk yet", self._path) from None
        finally:
            os.close(folder)

    def end(self) -> None:
        """Leaves nothing but the file itself."""
        if self._part:
            with contextlib.suppress(OSError):  # it was never made, or stays hidden
                os.unlink(self._part, dir_fd=self._folder)
        for descriptor in (self._file, self._folder):
            if descriptor >= 0:
                os.close(descriptor)


def _link_new(part: str, base: str, folder: int) -> None:
    """A new name for a whole file: what came under that name meanwhile is not replaced."""
    try:
        os.link(part, base, src_dir_fd=folder, dst_dir_fd=folder)
    except OSError as error:
        if error.errno not in (errno.EPERM, errno.EOPNOTSUPP, errno.ENOSYS, errno.EMLINK, errno.ENOSPC):
            raise
        if os.access(base, os.F_OK, dir_fd=folder, follow_symlinks=False):
            raise FileExistsError(errno.EEXIST, os.strerror(errno.EEXIST)) from None
        os.rename(part, base, src_dir_fd=folder, dst_dir_fd=folder)  # a disk that gives no second name
