"""Capture files on a disk: what is packed, what is left where that fails, and what is mapped."""

import array
import contextlib
import errno
import io
import mmap
import os
import pathlib
import pickle
import resource
import signal
import stat
import unittest
from unittest import mock

from common import coded, folder_for, forked, numpy, zr400
from zr400 import _files

BODIES = [("information", b"abcde"), ("parity", b""), ("capture", b"0123456789")]
OPEN_FILES = "/proc/self/fd"


class Folder(unittest.TestCase):
    """Each test has a folder of its own, and `archive` is a name in it that nothing has yet."""

    def setUp(self):
        self.folder = folder_for(self)
        self.archive = self.path("archive")
        zr400.runs(0, 1)  # so that a worker has its pipes before files are counted

    def path(self, name):
        return os.path.join(self.folder, name)

    def file(self, name, content=b"", size=None):
        """A file, where need be with nothing but a hole behind its content."""
        with open(self.path(name), "wb") as file:
            file.write(content)
            if size is not None:
                file.truncate(size)
        return self.path(name)

    def content(self, name):
        with open(self.path(name), "rb") as file:
            return file.read()

    def there(self):
        return sorted(os.listdir(self.folder))

    def packed(self, bodies=BODIES):
        zr400.pack(self.archive, bodies)
        return self.archive


def file_of(bodies):
    """The bytes of a capture file."""
    kinds = [zr400.KINDS.index(kind) + 1 for kind, _ in bodies]
    head = zr400.archive_write(len(bodies), kinds, [len(body) for _, body in bodies])
    return bytes(head) + b"".join(body for _, body in bodies)


def listed(path):
    with zr400.contents(path) as entries:
        return [(entry.kind, bytes(entry.body)) for entry in entries]


class Packing(Folder):
    def test_the_file_of_the_request(self):
        self.packed([("information", b"")])
        self.assertEqual(self.content("archive"), b"400ZR CAPTURE 1\n\0\1\1\0\0\0\x1b\0\0\0\0")
        (entry,) = zr400.contents(self.archive)
        self.assertEqual((entry.number, entry.kind, entry.offset, entry.length, entry.body), (1, "information", 27, 0, b""))

    def test_bodies_of_every_kind(self):
        numbers = array.array("H", range(100))
        bodies = [
            ("information", b"bytes"), (2, bytearray(b"more")), ("capture", memoryview(b"a view")), ("parity", numbers), (1, b""),
            ("capture", self.file("stored", b"in a file")), ("parity", pathlib.Path(self.file("named", b"by a path"))), (3, self.file("empty")),
            ("information", memoryview(bytearray(24)).cast("B", (4, 6))),
        ]
        expected = [
            ("information", b"bytes"), ("parity", b"more"), ("capture", b"a view"), ("parity", numbers.tobytes()), ("information", b""),
            ("capture", b"in a file"), ("parity", b"by a path"), ("capture", b""), ("information", bytes(24)),
        ]
        if numpy is not None:
            bodies.append(("capture", numpy.arange(10, dtype=">u4")))
            expected.append(("capture", numpy.arange(10, dtype=">u4").tobytes()))
        self.packed(iter(bodies))
        self.assertEqual(self.content("archive"), file_of(expected))
        self.assertEqual(listed(self.archive), expected)
        self.assertEqual(self.there(), ["archive", "empty", "named", "stored"])

    def test_every_number_of_bodies(self):
        for count in range(1, 33):
            bodies = [(zr400.KINDS[k % 3], bytes([k]) * (7 * k % 11)) for k in range(count)]
            zr400.pack(self.archive, bodies, replace=True)
            self.assertEqual(self.content("archive"), file_of(bodies))
            self.assertEqual(listed(self.archive), bodies)

    def test_a_capture_and_its_inputs(self):
        information, parity, capture = coded(1)
        self.packed([("information", information), ("parity", parity), ("capture", self.file("stored", capture))])
        with zr400.contents(self.archive) as (one, two, three):
            self.assertEqual(zr400.code(1, 7, one.body, two.body), capture)
            self.assertEqual(zr400.read(1, 7, three.body), (information, parity, 0))

    def test_in_parts(self):
        held, stored = os.urandom(1000), os.urandom(999)
        lengths, write = [], os.write

        def seven(to, data):
            lengths.append(len(data))
            return write(to, data[:7])

        with mock.patch.object(_files, "PART", 10), writing(seven):
            self.packed([("capture", held), ("capture", self.file("stored", stored)), ("parity", held[:10]), ("parity", self.path("stored"))])
        self.assertEqual(listed(self.archive), [("capture", held), ("capture", stored), ("parity", held[:10]), ("parity", stored)])
        self.assertEqual([length for length in lengths if length > 10], list(range(54, 10, -7)))  # the head alone

    def test_a_name_in_this_folder(self):
        before = os.getcwd()
        os.chdir(self.folder)
        try:
            zr400.pack("here", BODIES)
            zr400.pack(b"as bytes", [(kind, body) for kind, body in listed("here")])
            zr400.pack(pathlib.Path("as a path"), BODIES)
            self.assertEqual([listed(name) for name in (b"here", "as bytes", pathlib.Path("as a path"))], [BODIES] * 3)
        finally:
            os.chdir(before)
        self.assertEqual(self.there(), ["as a path", "as bytes", "here"])

    def test_the_mode_is_that_of_any_new_file(self):
        for mask in (0o022, 0o077, 0o002):
            before = os.umask(mask)
            try:
                zr400.pack(self.archive, BODIES)
                self.assertEqual(stat.S_IMODE(os.stat(self.archive).st_mode), 0o666 & ~mask)
            finally:
                os.umask(before)
            os.remove(self.archive)

    def test_a_file_packed_anew_while_it_is_mapped(self):
        entries = zr400.contents(self.packed())
        zr400.pack(self.archive, [(entry.kind, entry.body) for entry in reversed(entries)], replace=True)
        self.assertEqual(listed(self.archive), BODIES[::-1])
        zr400.pack(self.archive, [("capture", self.archive)], replace=True)  # the file itself as a body
        self.assertEqual(listed(self.archive), [("capture", file_of(BODIES[::-1]))])
        self.assertEqual([bytes(entry.body) for entry in entries], [body for _, body in BODIES])  # what is mapped is still the first one


class There(Folder):
    """What stands under the name already."""

    def test_a_file_stays(self):
        self.file("archive", b"old")
        with self.assertRaises(FileExistsError) as caught:
            zr400.pack(self.archive, BODIES)
        self.assertEqual((caught.exception.filename, self.content("archive"), self.there()), (self.archive, b"old", ["archive"]))

    def test_a_file_is_replaced(self):
        self.file("archive", b"old")
        os.chmod(self.archive, 0o640)
        os.link(self.archive, self.path("other name"))
        zr400.pack(self.archive, BODIES, replace=True)
        self.assertEqual((self.content("archive"), self.content("other name")), (file_of(BODIES), b"old"))
        self.assertEqual(stat.S_IMODE(os.stat(self.archive).st_mode), 0o640)
        self.assertEqual(self.there(), ["archive", "other name"])

    def test_a_link_is_replaced_and_not_followed(self):
        for target in (self.file("behind", b"old"), self.path("nothing")):
            os.symlink(target, self.archive)
            with self.assertRaises(FileExistsError):
                zr400.pack(self.archive, BODIES)
            zr400.pack(self.archive, BODIES, replace=True)
            self.assertEqual((os.path.islink(self.archive), self.content("archive"), self.content("behind")), (False, file_of(BODIES), b"old"))
            os.remove(self.archive)

    def test_what_is_no_file(self):
        os.mkdir(self.path("folder"))
        os.mkfifo(self.path("pipe"))
        for name, error in (("folder", IsADirectoryError), ("folder/", IsADirectoryError), (".", IsADirectoryError), ("pipe", OSError)):
            for replace in (False, True):
                with self.assertRaises(error if replace else FileExistsError):
                    zr400.pack(self.path(name), BODIES, replace=replace)
        for name in ("nowhere/archive", "nowhere/", ""):
            with self.assertRaises(FileNotFoundError):
                zr400.pack(name and self.path(name), BODIES)
        with self.assertRaises(NotADirectoryError):
            zr400.pack(os.path.join(self.file("file"), "archive"), BODIES)
        for wrong in (5, None, BODIES):
            with self.assertRaises(TypeError):
                zr400.pack(wrong, BODIES)
        self.assertEqual(self.there(), ["file", "folder", "pipe"])

    def test_a_name_that_is_taken_meanwhile(self):
        with each_write(lambda: self.file("archive", b"another's")), self.assertRaises(FileExistsError) as caught:
            zr400.pack(self.archive, BODIES)
        self.assertEqual((caught.exception.filename, self.content("archive"), self.there()), (self.archive, b"another's", ["archive"]))

    def test_a_disk_that_gives_no_second_name(self):
        with failing("link", PermissionError(errno.EPERM, "no links here")):
            zr400.pack(self.archive, BODIES)
            self.assertEqual((self.content("archive"), self.there()), (file_of(BODIES), ["archive"]))
            with each_write(lambda: self.file("other", b"another's")), self.assertRaises(FileExistsError):
                zr400.pack(self.path("other"), BODIES)
        self.assertEqual((self.content("other"), self.there()), (b"another's", ["archive", "other"]))


def writing(instead):
    """While a file is packed: what is done in place of each write to a file. A worker is written to as ever."""
    write = os.write
    return mock.patch.object(os, "write", lambda to, data: (instead if stat.S_ISREG(os.fstat(to).st_mode) else write)(to, data))


def each_write(work):
    """While a file is packed: `work` is done before each part is written."""
    write = os.write

    def worked(to, data):
        work()
        return write(to, data)

    return writing(worked)


def failing(name, error):
    """While a file is packed: a call of the system that fails."""
    failed = mock.Mock(side_effect=error)
    return writing(failed) if name == "write" else mock.patch.object(os, name, failed)


class Refused(Folder):
    def refused(self, bodies, number=1):
        with self.assertRaises(zr400.Refused) as caught:
            zr400.pack(self.archive, bodies)
        self.assertEqual((caught.exception.number, caught.exception.place), (number, 0))
        self.assertNotIn("archive", self.there())

    def test_counts_and_kinds(self):
        self.refused([])
        self.refused([("capture", b"")] * 33)
        self.refused([("capture", self.file("body", b"x"))] * 5000)
        for kind in (0, 4, 255, 256, -1, 2**64 + 1):
            self.refused([("information", b"abc"), (kind, b"")])

    def test_lengths_and_offsets(self):
        most = self.file("most", size=2**32 - 1)
        self.refused([("capture", self.file("more", size=2**32))])
        self.refused([("capture", self.file("much", size=2**40))])
        self.refused([("capture", most), ("capture", b"")])
        self.refused([("capture", self.file("edge", size=2**32 - 36)), ("capture", b"")])
        self.refused([("information", b"")] * 30 + [("capture", most), ("parity", b"")])

    def test_what_is_no_kind(self):
        for kind in ("Capture", "", "1", "captures"):
            with self.assertRaises(ValueError) as caught:
                zr400.pack(self.archive, [("information", b""), (kind, b"")])
            self.assertNotIsInstance(caught.exception, zr400.Refused)
            self.assertEqual(str(caught.exception), f"kind must be 'information', 'parity' or 'capture', and is {kind!r}")
        for kind in (1.0, None, b"capture"):
            with self.assertRaisesRegex(TypeError, "^kind must be a whole number, and is "):
                zr400.pack(self.archive, [(kind, b"")])
        self.assertEqual(self.there(), [])

    def test_what_is_no_body(self):
        os.mkfifo(self.path("pipe"))
        for body, error, told in (
            (5, TypeError, "^body 2 cannot be lent: "), (None, TypeError, "^body 2 cannot be lent: "), ([1], TypeError, "^body 2 cannot be lent: "),
            (memoryview(b"1234")[::2], TypeError, "^body 2 cannot be lent: its bytes do not stand one after the other"),
            (self.path("nothing"), FileNotFoundError, "nothing"), (self.folder, IsADirectoryError, self.folder),
            (self.path("pipe"), OSError, "it is no plain file: .*pipe"), (os.devnull, OSError, "it is no plain file: .*null"),
        ):
            with self.assertRaisesRegex(error, told):
                zr400.pack(self.archive, [("information", b"abc"), ("capture", body)])
        for bodies in (5, [5], [("capture",)], [("capture", b"", b"")]):
            with self.assertRaises((TypeError, ValueError)):
                zr400.pack(self.archive, bodies)
        self.assertEqual(self.there(), ["pipe"])

    def test_no_loan_is_left(self):
        body = bytearray(b"abc")
        for bodies, replace in (([("capture", body), (9, b"")], True), ([("capture", body), ("capture", 5)], True), ([("capture", body)], False)):
            self.file("archive")
            try:
                zr400.pack(self.archive, bodies, replace=replace)
            except (TypeError, ValueError, OSError):
                body.append(0)  # while the error still holds on to where it was raised; a loan forbids this
        self.assertEqual(len(body), 6)


class Failing(Folder):
    """Where a file cannot be written whole, nothing is left of it."""

    def setUp(self):
        super().setUp()
        self.body = self.file("body", b"x" * 1000)
        patch = mock.patch.object(_files, "PART", 100)
        patch.start()
        self.addCleanup(patch.stop)

    def fails(self, error, told, patch, bodies=None, replace=False):
        before, opened = self.there(), len(os.listdir(OPEN_FILES))
        with patch, self.assertRaisesRegex(error, told) as caught:
            zr400.pack(self.archive, bodies or [("information", b"abc"), ("capture", self.body), ("parity", b"")], replace=replace)
        self.assertEqual((self.there(), len(os.listdir(OPEN_FILES))), (before, opened))
        return caught.exception

    def written(self, size, after):
        """The body has another size when so many parts are written."""
        left = [after]

        def work():
            left[0] -= 1
            if left[0] == 0:
                os.truncate(self.body, size)

        return each_write(work)

    def test_a_body_that_is_cut_off(self):
        for after in (1, 2, 3, 8):
            os.truncate(self.body, 1000)
            left = 150 if after < 5 else 600  # as far as it was read
            self.fails(OSError, f"/body was cut off while it was packed: it had 1000 bytes, and {left} could be read", self.written(150, after))
        self.fails(OSError, "/body was cut off while it was packed: it had 150 bytes, and 0 could be read", self.written(0, 1))

    def test_a_body_that_grows(self):
        for after in (1, 2, 3, 12):
            os.truncate(self.body, 1000)
            self.fails(OSError, "/body grew while it was packed: it had 1000 bytes", self.written(1001, after))
        os.truncate(self.body, 0)
        self.fails(OSError, "/body grew while it was packed: it had 0 bytes", self.written(5, 1))

    def test_a_body_that_is_gone_or_another(self):
        def gone():
            if os.path.exists(self.body):
                os.remove(self.body)

        def a_pipe():
            os.remove(self.body)
            os.mkfifo(self.body)

        with each_write(gone), self.assertRaises(FileNotFoundError):
            zr400.pack(self.archive, [("information", b"abc"), ("capture", self.body)])
        self.assertEqual(self.there(), [])
        self.file("body", b"x")
        self.fails(OSError, "it is no plain file: .*body", each_write(a_pipe))

    def test_a_disk_that_is_full(self):
        full = OSError(errno.ENOSPC, os.strerror(errno.ENOSPC))
        for name in ("write", "fsync", "link"):
            error = OSError(errno.EDQUOT, os.strerror(errno.EDQUOT)) if name == "link" else full
            caught = self.fails(OSError, "archive", failing(name, error))
            self.assertEqual((caught.errno, caught.filename), (error.errno, self.archive))

    def test_no_file_is_left_open(self):
        opened, parts = len(os.listdir(OPEN_FILES)), iter((0, 0, 0, OSError(errno.EIO, "no more")))
        write = os.write

        def worked(to, data):
            error = next(parts)
            if error:
                raise error
            return write(to, data)

        try:
            with writing(worked):
                zr400.pack(self.archive, [("capture", self.body)] * 2)
        except OSError:  # while the error still holds on to where it was raised
            self.assertEqual(len(os.listdir(OPEN_FILES)), opened)
        self.assertEqual(list(parts), [])

    def test_an_old_file_stays_where_the_new_one_fails(self):
        self.file("archive", b"old")
        for name in ("write", "fsync", "replace"):
            error = OSError(errno.EIO, os.strerror(errno.EIO))
            self.fails(OSError, "archive", failing(name, error), replace=True)
            self.assertEqual(self.content("archive"), b"old")

    def test_a_size_limit(self):
        before = resource.getrlimit(resource.RLIMIT_FSIZE)
        handler = signal.signal(signal.SIGXFSZ, signal.SIG_IGN)
        try:
            resource.setrlimit(resource.RLIMIT_FSIZE, (500, before[1]))
            self.assertEqual(self.fails(OSError, "archive", contextlib.nullcontext()).errno, errno.EFBIG)
        finally:
            resource.setrlimit(resource.RLIMIT_FSIZE, before)
            signal.signal(signal.SIGXFSZ, handler)

    def test_an_interrupt(self):
        for name in ("write", "fsync", "link"):
            self.fails(KeyboardInterrupt, "", failing(name, KeyboardInterrupt))
        make = os.open

        def interrupted(*words, **more):
            descriptor = make(*words, **more)
            if words[1] & os.O_CREAT:
                os.close(descriptor)
                raise KeyboardInterrupt
            return descriptor

        self.fails(KeyboardInterrupt, "", mock.patch.object(os, "open", interrupted))

    def test_a_folder_that_cannot_be_synced(self):
        sync, failing = os.fsync, OSError(errno.EIO, os.strerror(errno.EIO))

        def synced(descriptor):
            if stat.S_ISDIR(os.fstat(descriptor).st_mode):
                raise failing
            sync(descriptor)

        with mock.patch.object(os, "fsync", synced), self.assertRaisesRegex(OSError, "the file is there, but perhaps not on the disk yet: .*archive"):
            zr400.pack(self.archive, BODIES)
        self.assertEqual((self.content("archive"), self.there()), (file_of(BODIES), ["archive", "body"]))

    def test_the_bytes_are_on_the_disk_before_the_name(self):
        order = []

        def noted(name):
            call = getattr(os, name)
            return mock.patch.object(os, name, lambda *words, **more: order.append(name) or call(*words, **more))

        for replace, name in ((False, "link"), (True, "replace")):
            del order[:]
            with each_write(lambda: order.append("write")), noted("fsync"), noted("link"), noted("replace"):
                zr400.pack(self.archive, BODIES, replace=replace)
            self.assertEqual(order, ["write"] * 3 + ["fsync", name, "fsync"])


class Contents(Folder):
    def test_what_an_entry_tells(self):
        entries = zr400.contents(self.packed())
        self.assertEqual([entry[:4] for entry in entries], [(1, "information", 45, 5), (2, "parity", 50, 0), (3, "capture", 50, 10)])
        self.assertEqual((len(entries), entries[-1].body[:3], entries[1].body), (3, b"012", b""))
        self.assertIsInstance(entries, tuple)

    def test_a_body_is_the_file_itself(self):
        entries = zr400.contents(self.packed())
        for entry in entries:
            self.assertIsInstance(entry.body.obj, mmap.mmap)
            self.assertTrue(entry.body.readonly and entry.body.format == "B")
            self.assertEqual((entry.body.nbytes, len(entry.body)), (entry.length, entry.length))
        with open(self.archive, "r+b") as file:
            file.seek(52)
            file.write(b"XY")
        self.assertEqual(entries[2].body, b"01XY456789")

    def test_no_more_is_read_than_the_longest_head(self):
        self.packed([("capture", bytes(5000))])
        asked = []

        class Counted(io.FileIO):
            def read(self, size=-1):
                asked.append(size)
                return super().read(size)

        with mock.patch.object(_files, "open_plain", lambda path: Counted(path)):
            self.assertEqual(len(zr400.contents(self.archive)[0].body), 5000)
        self.assertEqual(asked, [306])

    def test_the_map_stays_as_long_as_a_body(self):
        before = len(os.listdir(OPEN_FILES))
        body = zr400.contents(self.packed())[2].body
        os.remove(self.archive)
        self.assertEqual(body, b"0123456789")
        part = body[3:5]
        body.release()
        self.assertEqual(part, b"34")
        self.assertIn(self.archive, mapped_files())
        part.release()
        self.assertEqual((len(os.listdir(OPEN_FILES)), self.archive in mapped_files()), (before, False))

    def test_a_with_statement_releases_the_bodies(self):
        with zr400.contents(self.packed()) as entries:
            part = entries[2].body[3:5]
        for entry in entries:
            with self.assertRaises(ValueError):
                bytes(entry.body)
        entries.close()  # once more does no harm
        self.assertEqual(part, b"34")  # what a caller has taken is his
        del part
        self.assertNotIn(self.archive, mapped_files())

    def test_a_body_that_something_holds_is_not_released(self):
        with zr400.contents(self.packed()) as entries:
            held = pickle.PickleBuffer(entries[0].body)  # as an array of numpy does
        self.assertEqual(held.raw(), b"abcde")
        with self.assertRaises(ValueError):
            bytes(entries[2].body)

    def test_beyond_4_gib(self):
        lengths = [1000, 2**32 - 1]
        head = bytes(zr400.archive_write(2, [1, 3], lengths))
        self.file("archive", head, size=36 + sum(lengths))
        with open(self.archive, "r+b") as file:
            file.seek(-4, os.SEEK_END)
            file.write(b"last")
        with zr400.contents(self.archive) as (one, two):
            self.assertEqual((two.offset, two.length, len(two.body), bytes(two.body[-5:])), (1036, 2**32 - 1, 2**32 - 1, b"\0last"))
            self.assertEqual(one.body, bytes(1000))
        for change in (-1, 1):
            os.truncate(self.archive, 36 + sum(lengths) + change)
            self.assertEqual(self.refusal(), (12, 2))

    def test_packed_beyond_4_gib(self):
        """The body is all hole, and the parts of it are neither read nor written, which would take long."""
        write = os.write
        self.file("long", size=2**32 - 1)

        class Hole(io.FileIO):
            def readinto(self, room):
                at = self.tell()
                return self.seek(min(at + len(room), 2**32 - 1)) - at

        def sought(to, data):
            if len(data) < 1000:
                return write(to, data)
            os.ftruncate(to, os.lseek(to, len(data), os.SEEK_CUR))
            return len(data)

        with mock.patch.object(_files, "PART", 1 << 26), mock.patch.object(_files, "open_plain", Hole), writing(sought):
            zr400.pack(self.archive, [("information", b"abc"), ("capture", self.path("long"))])
        with zr400.contents(self.archive) as (one, two):
            self.assertEqual((one.body, two.offset, two.length, two.body[-1]), (b"abc", 39, 2**32 - 1, 0))
        self.assertEqual(os.path.getsize(self.archive), 39 + 2**32 - 1)

    def refusal(self, content=None):
        if content is not None:
            self.file("archive", content)
        opened = len(os.listdir(OPEN_FILES))
        with self.assertRaises(zr400.Refused) as caught:
            zr400.contents(self.archive)
        self.assertEqual(len(os.listdir(OPEN_FILES)), opened)
        return caught.exception.number, caught.exception.place

    def test_refusals(self):
        whole = file_of(BODIES)

        def changed(*sets):
            other = bytearray(whole)
            for at, byte in sets:
                other[at] = byte
            return other

        for content, number, place in (
            (b"", 10, 0), (whole[:15], 10, 0), (changed((0, 0)), 10, 0), (changed((15, 13)), 10, 0), (whole[:16], 11, 0), (whole[:17], 11, 0),
            (changed((17, 0)), 11, 0), (changed((17, 33)), 11, 0), (changed((16, 1)), 11, 0), (changed((18, 0)), 11, 1), (changed((36, 4)), 11, 3),
            (changed((36, 4), (22, 9)), 11, 3), (whole[:18], 12, 1), (whole[:26], 12, 1), (whole[:27], 12, 2), (whole[:44], 12, 3),
            (changed((22, 9)), 12, 1), (changed((31, 9)), 12, 2), (whole[:-1], 12, 3), (whole + b"\0", 12, 3), (changed((17, 2)), 12, 1),
        ):
            self.assertEqual(self.refusal(content), (number, place), content)

    def test_what_is_no_file(self):
        os.mkfifo(self.path("pipe"))
        for name, error in (("nothing", FileNotFoundError), ("", IsADirectoryError), ("pipe", OSError)):
            with self.assertRaises(error):
                zr400.contents(self.path(name))
        for wrong in (5, None, BODIES):
            with self.assertRaises(TypeError):
                zr400.contents(wrong)

    def test_a_file_that_is_cut_off_while_it_is_opened(self):
        read = zr400.archive_read

        def cut(size, first):
            os.truncate(self.archive, 50)
            return read(size, first)

        with mock.patch.object(zr400, "archive_read", cut), self.assertRaisesRegex(OSError, "archive was cut off while it was opened: it had 60 bytes, and 50 could be read"):
            zr400.contents(self.packed())
        first = _files.first_bytes

        def cut_before(file, length):
            os.truncate(self.archive, 20)
            return first(file, length)

        with mock.patch.object(_files, "first_bytes", cut_before), self.assertRaisesRegex(OSError, "archive was cut off while it was opened: it had 50 bytes, and 20 could be read"):
            zr400.contents(self.archive)


    def test_a_file_that_is_cut_off_while_it_is_mapped(self):
        (entry,) = zr400.contents(self.packed([("capture", bytes(1 << 20))]))

        def work():
            resource.setrlimit(resource.RLIMIT_CORE, (0, 0))
            os.truncate(self.archive, 100)
            return entry.body[0] == 0 and entry.body[-1]

        status = forked(work)
        self.assertTrue(os.WIFSIGNALED(status) and os.WTERMSIG(status) == signal.SIGBUS, status)


def mapped_files():
    with open("/proc/self/maps", encoding="utf-8", errors="surrogateescape") as maps:
        return maps.read()


if __name__ == "__main__":
    unittest.main()
