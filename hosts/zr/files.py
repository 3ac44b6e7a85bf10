"""What a command reads and writes. The proved program is handed descriptors, never names: an input is opened here, and an output is a temporary file beside
the asked name until it is whole."""

import errno
import os
import re
import secrets
import select
import signal
import stat
from typing import Iterable, List, NamedTuple, Optional, Sequence, Set, Tuple

LONGEST = 1412608
"""The bytes of a capture of eight super frames. No other buffer is longer."""
LONGEST_BODY = (1 << 32) - 1
"""What an archive can say of a body. More of a pipe is not kept: a byte more shows that it is too long."""
LONGEST_ARCHIVE = 1 << 38
"""More than 32 such bodies and the table have."""
PART = 1 << 20
"""So many bytes of what may be too long for memory are held at a time."""

STANDARD = re.compile(r"-|/dev/std(in|out|err)|/(?:dev|proc/self)/fd/([0-9]{1,9})")
NULL_DEVICE = os.makedev(1, 3)
ENDINGS = (signal.SIGINT, signal.SIGTERM, signal.SIGHUP, signal.SIGQUIT, signal.SIGXCPU)


class Failed(Exception):
    """What cannot be done, in words for the person at the shell."""


def shown(name: str) -> str:
    """A name as it can be printed anywhere: quoted where it holds more than plain letters, with its escapes written out, and cut where it is very long."""
    text = os.fsencode(name).replace(b"\\", b"\\\\").decode("utf-8", "backslashreplace")
    plain = "".join(c if c.isprintable() else c.encode("unicode_escape").decode() for c in text)
    if len(plain) > 200:
        plain = f"{plain[:90]}..{plain[-90:]}"
    if re.fullmatch(r"[\w./+,:@%=~^-]+", plain):
        return plain
    return f'"{plain}"' if "'" in plain else f"'{plain}'"


def failed(name: str, what: str, error: OSError) -> Failed:
    return Failed(f"{shown(name)} {what}: {error.strerror}")


closed: Set[int] = set()  # of standard input, output and error, those that were closed when the command began


def hold_standard() -> None:
    """No file that is opened here may take the number of a closed one: data or answers would go into it."""
    for descriptor in range(3):
        try:
            os.fstat(descriptor)
        except OSError:
            closed.add(descriptor)
            os.open(os.devnull, os.O_RDWR)


def standard_of(name: str, descriptor: int) -> Optional[int]:
    """The descriptor, open already, that a name means, `-` being `descriptor`."""
    match = STANDARD.fullmatch(os.path.normpath(name)) if name else None
    if not match:
        return None
    meant = int(match[2]) if match[2] else ("in", "out", "err").index(match[1]) if match[1] else descriptor
    try:
        os.fstat(meant)
    except OSError as error:
        raise failed(name, "cannot be opened", error)
    if meant in closed:
        raise Failed(f"{shown(name)} cannot be opened: it is closed")
    return meant


signalled = -1  # readable once a signal came


def watch_signals() -> None:
    global signalled
    signalled, told = os.pipe2(os.O_NONBLOCK | os.O_CLOEXEC)
    signal.set_wakeup_fd(told, warn_on_full_buffer=False)


def wait_for(source: int) -> None:
    """Until there is something to read, or a signal came: one that comes just before a read does not end it, and the read would wait on."""
    waiting = select.poll()
    for descriptor in (source, signalled):
        if descriptor >= 0:
            waiting.register(descriptor, select.POLLIN)
    waiting.poll()


def read_part(source: int, length: int) -> bytes:
    """Some bytes, or none at the end; it waits where the other side of a pipe has asked not to."""
    while True:
        wait_for(source)
        try:
            return os.read(source, length)
        except BlockingIOError:
            pass


def write_all(to: int, data: bytes) -> None:
    at = 0
    while at < len(data):
        try:
            at += os.write(to, data[at:])
        except BlockingIOError:
            select.select([], [to], [])


def unnamed(folders: Sequence[str]) -> int:
    """A file on the disk that has no name, so that nothing is left of it, in the first of some folders that can have one."""
    for folder in folders:
        try:
            return os.open(folder, os.O_TMPFILE | os.O_RDWR, 0o600)
        except OSError:
            pass  # not every disk has such files
        before = signal.pthread_sigmask(signal.SIG_BLOCK, ENDINGS)
        try:
            name = os.path.join(folder, f".zr-{os.getpid()}-{secrets.token_hex(4)}")
            descriptor = os.open(name, os.O_RDWR | os.O_CREAT | os.O_EXCL, 0o600)
            os.unlink(name)
            return descriptor
        except OSError as error:
            last = error
        finally:
            signal.pthread_sigmask(signal.SIG_SETMASK, before)
    raise last


class Input:
    """A file that is read. What is no plain file, or is open already, is copied first."""

    most = LONGEST
    where = "in memory"

    def __init__(self, role: str, name: str) -> None:
        self.role, self.name = role, name
        self.source = standard_of(name, 0)
        self.copied = False
        self.descriptor = -1

    def open_source(self) -> None:
        try:
            self.descriptor = os.open(self.name, os.O_RDONLY) if self.source is None else os.dup(self.source)
        except OSError as error:
            raise failed(self.name, "cannot be opened", error)
        if stat.S_ISDIR(os.fstat(self.descriptor).st_mode):
            raise Failed(f"{shown(self.name)} cannot be read: it is a folder")

    def open(self) -> None:
        self.open_source()
        if self.is_stream():
            source = self.descriptor
            try:
                self.descriptor, self.copied = self.space(), True
                self.pass_on(source, self.descriptor)
            except OSError as error:
                raise failed(self.name, f"cannot be kept {self.where}", error)
            os.close(source)

    def is_stream(self) -> bool:
        """Whether it is copied, since it gives its bytes once or may have given some already."""
        return self.source is not None or not stat.S_ISREG(os.fstat(self.descriptor).st_mode)

    def space(self) -> int:
        return os.memfd_create("zr")

    def pass_on(self, source: int, to: int) -> None:
        """What a pipe or a device gives: no more than shows that it is too long."""
        size = 0
        while size <= self.most:
            try:
                part = read_part(source, min(PART, self.most + 1 - size))
            except OSError as error:
                raise failed(self.name, "cannot be read", error)
            if not part:
                break
            size += len(part)
            write_all(to, part)

    @property
    def size(self) -> Optional[int]:
        """None where a copy shows only that it is longer than any buffer."""
        size = os.fstat(self.descriptor).st_size
        return None if self.copied and size > LONGEST else size


class LongInput(Input):
    """An archive or a body of one, which may be too long for memory. A plain file is read where it stands, and what a pipe or a device gives is kept on the disk."""

    where = "on the disk"

    def __init__(self, role: str, name: str) -> None:
        super().__init__(role, name)
        self.most = LONGEST_BODY if role.startswith("BODY") else LONGEST_ARCHIVE
        self.length = 0
        self.folders: List[str] = [folder for folder in (os.environ.get("TMPDIR"), "/var/tmp", "/tmp") if folder]

    def open(self) -> None:
        super().open()
        self.length = os.fstat(self.descriptor).st_size
        if self.source is not None and not self.copied:
            os.lseek(self.source, 0, os.SEEK_END)  # as if it had been read from there

    def is_stream(self) -> bool:
        if not stat.S_ISREG(os.fstat(self.descriptor).st_mode):
            return True
        return self.source is not None and os.lseek(self.descriptor, 0, os.SEEK_CUR) != 0

    def space(self) -> int:
        return unnamed(self.folders)


class Stretch(NamedTuple):
    """The bytes of an input that are copied behind what the program wrote."""

    source: LongInput
    first: int
    length: int

    def copy(self, to: int) -> None:
        """In parts. What changes its size meanwhile is not what the table says, and nothing is made of it."""
        source, at, end = self.source, self.first, self.first + self.length
        while at < end:
            part = self.read(at, min(PART, end - at))
            if not part:
                break
            write_all(to, part)
            at += len(part)
        now = os.fstat(source.descriptor).st_size
        if at < end or now < source.length:
            raise Failed(f"{shown(source.name)} was cut off while it was copied: it had {source.length} bytes")
        if now > source.length or self.read(now, 1):
            raise Failed(f"{shown(source.name)} grew while it was copied: it had {source.length} bytes")

    def read(self, at: int, length: int) -> bytes:
        try:
            return os.pread(self.source.descriptor, length, at)
        except OSError as error:
            raise failed(self.source.name, "cannot be read", error)


class Output:
    """A file that is written: beside its name first, and under it when it is whole. A stream (standard output, a pipe, a device) is written at the end."""

    def __init__(self, role: str, name: str, force: bool) -> None:
        self.role, self.name, self.force = role, name, force
        self.descriptor = self.folder = -1
        self.part = self.kept = ""
        self.placed = False
        self.behind: List[Stretch] = []
        self.stream = standard_of(name, 1)
        self.base = os.path.basename(name)
        if self.stream == 2:
            raise Failed(f"{shown(name)}: standard error is for answers, and data is never mixed with them")
        try:
            self.old: Optional[os.stat_result] = os.lstat(name) if self.stream is None else os.fstat(self.stream)
        except FileNotFoundError:
            self.old = None
        except OSError as error:
            raise failed(name, "cannot be opened for writing", error)
        self.device = not self.is_stream and self.old is not None and (stat.S_ISCHR(self.old.st_mode) or stat.S_ISFIFO(self.old.st_mode))

    @property
    def is_stream(self) -> bool:
        return self.stream is not None

    @property
    def poured(self) -> bool:
        return self.is_stream or self.device

    def refuse_old(self, inputs: Iterable[Input]) -> None:
        """An output destroys nothing: what is there stays, unless it may be replaced."""
        if self.poured:
            return
        if not self.base:
            raise Failed(f"{shown(self.name)} cannot be opened for writing: it names no file")
        if self.old is None:
            return
        if os.path.realpath(os.path.dirname(self.name) or ".") == "/dev":
            raise Failed(f"{shown(self.name)} cannot be opened for writing: it is the system's own")
        if not (stat.S_ISREG(self.old.st_mode) or stat.S_ISLNK(self.old.st_mode)):
            raise Failed(f"{shown(self.name)} cannot be opened for writing: {'it is a folder' if stat.S_ISDIR(self.old.st_mode) else 'it is no file'}")
        if not self.force:
            read = [i.role for i in inputs if i.source is None and one_file(i.name, self.name)]
            raise Failed(f"{shown(self.name)} exists already{f', and is {read[0]}, which is read' if read else ''}; it is replaced where --force stands first: zr --force ..")

    def identity(self) -> Optional[Tuple[int, int]]:
        """What stands there now, behind links too."""
        try:
            now = os.fstat(self.stream) if self.stream is not None else os.stat(self.name)
        except OSError:
            return None
        return now.st_dev, now.st_ino

    def is_one_with(self, other: "Output") -> bool:
        """Whether two outputs would go to one file, however they are named."""
        if self.identity() is not None and self.identity() == other.identity():
            return self.old is None or self.old.st_rdev != NULL_DEVICE
        return not self.is_stream and not other.is_stream and one_file(self.name, other.name)

    def begin(self) -> None:
        if self.poured:
            self.descriptor = os.memfd_create("zr")
            return
        try:
            self.folder = os.open(os.path.dirname(self.name) or ".", os.O_PATH | os.O_DIRECTORY)
            self.refuse_anothers()
            self.part = f".zr-{os.getpid()}-{secrets.token_hex(4)}"
            self.descriptor = os.open(self.part, os.O_RDWR | os.O_CREAT | os.O_EXCL, 0o600, dir_fd=self.folder)
        except OSError as error:
            self.part = ""
            raise failed(self.name, "cannot be opened for writing", error)

    def refuse_anothers(self) -> None:
        """In a folder that many share only its owner can replace a file. It is known before any name is given."""
        folder = os.fstat(self.folder)
        if self.old is not None and folder.st_mode & stat.S_ISVTX and os.geteuid() not in (0, folder.st_uid, self.old.st_uid):
            raise PermissionError(errno.EPERM, "it is another's, in a folder where only its owner can replace it")

    def whole(self) -> None:
        """The bytes are on the disk, and the file is as open to others as the old one, or a new one, is."""
        if self.poured:
            return
        try:
            os.lseek(self.descriptor, 0, os.SEEK_END)
            self.copy_behind(self.descriptor)
            if self.old is not None and stat.S_ISREG(self.old.st_mode):
                if (self.old.st_uid, self.old.st_gid) != (os.geteuid(), os.getegid()):
                    try:
                        os.fchown(self.descriptor, self.old.st_uid, self.old.st_gid)
                    except PermissionError:
                        pass  # it becomes ours, as a new file would be
                os.fchmod(self.descriptor, stat.S_IMODE(self.old.st_mode) & 0o777)
            else:
                mask = os.umask(0)
                os.umask(mask)
                os.fchmod(self.descriptor, 0o666 & ~mask)
            os.fsync(self.descriptor)
        except OSError as error:
            raise failed(self.name, "cannot be written", error)

    def copy_behind(self, to: int) -> None:
        for stretch in self.behind:
            stretch.copy(to)

    def pour(self) -> None:
        """Writes a stream."""
        try:
            to = os.open(self.name, os.O_WRONLY) if self.stream is None else self.stream
            write_all(to, os.pread(self.descriptor, os.fstat(self.descriptor).st_size, 0))
            self.copy_behind(to)
            if self.stream is None:
                os.close(to)
        except OSError as error:
            raise failed(self.name, "cannot be written", error)

    def place(self, keep: bool) -> None:
        """Puts the whole file under its name, in one step. Where another output comes later, what is replaced is kept until that is placed too."""
        try:
            if self.force:
                if keep:
                    self.keep_old()
                os.replace(self.part, self.base, src_dir_fd=self.folder, dst_dir_fd=self.folder)
                self.part = ""
            else:
                link_new(self.part, self.base, self.folder)
            self.placed = True
        except OSError as error:
            raise failed(self.name, "cannot be written", error)

    def keep_old(self) -> None:
        kept = f"{self.part}-old"
        try:
            os.link(self.base, kept, src_dir_fd=self.folder, dst_dir_fd=self.folder, follow_symlinks=False)
            self.kept = kept
        except OSError:
            pass  # there is none, or it may have no second name: then it cannot be brought back

    def stands(self) -> bool:
        """Whether the name still leads to this file: a disk may take two names for one, as Out and out."""
        now, own = os.stat(self.base, dir_fd=self.folder, follow_symlinks=False), os.fstat(self.descriptor)
        return (now.st_dev, now.st_ino) == (own.st_dev, own.st_ino)

    def sync_folder(self) -> None:
        try:
            folder = os.open(".", os.O_RDONLY | os.O_DIRECTORY, dir_fd=self.folder)
        except OSError:
            return  # a folder that may be written and not read
        try:
            os.fsync(folder)
        except OSError as error:
            raise failed(self.name, "is there, but perhaps not on the disk yet", error)
        finally:
            os.close(folder)

    def undo(self) -> bool:
        """Takes the name back, or brings back what stood there; whether that could be done."""
        if not self.placed:
            return True
        try:
            if self.kept:
                os.replace(self.kept, self.base, src_dir_fd=self.folder, dst_dir_fd=self.folder)
                self.kept = ""
            elif self.old is None:
                os.unlink(self.base, dir_fd=self.folder)
            else:
                return False
        except FileNotFoundError:
            pass  # it is gone with another name for it
        except OSError:
            return False
        self.placed = False
        return True

    def end(self) -> None:
        """Leaves nothing but the output itself."""
        for name in (self.part, self.kept):
            try:
                if name:
                    os.unlink(name, dir_fd=self.folder)
            except OSError:
                pass  # it is gone, or stays hidden; the answer is what counts


def link_new(part: str, base: str, folder: int) -> None:
    """A new name for a whole file: what came under that name meanwhile is not replaced."""
    try:
        os.link(part, base, src_dir_fd=folder, dst_dir_fd=folder)
    except OSError as error:
        if error.errno not in (errno.EPERM, errno.EOPNOTSUPP, errno.ENOSYS, errno.EMLINK, errno.ENOSPC):
            raise
        if os.access(base, os.F_OK, dir_fd=folder, follow_symlinks=False):
            raise FileExistsError(errno.EEXIST, os.strerror(errno.EEXIST))
        os.rename(part, base, src_dir_fd=folder, dst_dir_fd=folder)  # a disk that gives no second name


def one_file(a: str, b: str) -> bool:
    """Whether two names lead to one file, or will: through links of either kind, and through folders."""
    if os.path.realpath(a) == os.path.realpath(b):
        return True
    try:
        return os.path.samefile(a, b)
    except OSError:
        return False


def refuse_shared(inputs: Sequence[Input], outputs: Sequence[Output]) -> None:
    for k, i in enumerate(inputs):
        twice = [j.role for j in inputs[:k] if i.source is not None and j.source == i.source]
        if twice:
            raise Failed(f"{twice[0]} and {i.role} cannot both be {'standard input' if i.source == 0 else shown(i.name)}")
    for k, one in enumerate(outputs):
        for other in outputs[:k]:
            if one.is_one_with(other):
                raise one_for_two(other, one)


def refuse_circles(inputs: Sequence[Input], outputs: Sequence[Output]) -> None:
    """An archive may not be one of its own bodies: what is poured into a file while it is read never ends."""
    for output in outputs:
        for i in inputs:
            if output.stream is not None and os.path.sameopenfile(i.descriptor, output.stream) and stat.S_ISREG(os.fstat(i.descriptor).st_mode):
                raise Failed(f"{output.role} and {i.role} are one file, {shown(i.name)}, which would be read while it is written")


def one_for_two(first: Output, second: Output) -> Failed:
    return Failed(f"{first.role} and {second.role} are one file, {shown(second.name)}, and the second would replace the first")


def begin(outputs: Sequence[Output]) -> None:
    for k, one in enumerate(outputs):
        one.begin()
        for other in outputs[:k]:
            # one folder may have two names, as where it is mounted twice
            if not one.poured and not other.poured and one.base == other.base and os.path.sameopenfile(one.folder, other.folder):
                raise one_for_two(other, one)


def deliver(outputs: List[Output]) -> None:
    """Both or neither: streams first, since they fail more easily; then the names, which are taken back where one cannot be had. From the first name on no
    signal ends the command, so that one that has written its outputs is done."""
    for output in outputs:
        output.whole()
    for output in outputs:
        if output.poured:
            output.pour()
    signal.pthread_sigmask(signal.SIG_BLOCK, ENDINGS)
    named = [output for output in outputs if not output.poured]
    try:
        for output in named:
            output.place(keep=output is not named[-1])
        if not all(output.stands() for output in named):
            raise one_for_two(named[0], named[-1])
    except Failed as error:
        left = [shown(output.name) for output in reversed(named) if not output.undo()]
        raise Failed(f"{error}; {left[0]} is new already, and the old one could not be put back") if left else error
    for output in named:
        output.sync_folder()
