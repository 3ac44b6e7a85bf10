"""Files when the disk does not do as asked, or change while they are copied: what hosts/check-zr cannot bring about from outside.

    python3 -m unittest discover -s hosts/zr/tests
"""

import errno
import os
import signal
import sys
import tempfile
import threading
import unittest
from unittest import mock

sys.path.insert(0, os.path.dirname(os.path.dirname(os.path.abspath(__file__))))

import files  # noqa: E402
from files import Failed, LongInput, Output, Stretch  # noqa: E402


def refusing(function, call):
    """A function of the system that fails at one of its calls."""
    made = []

    def refuse(*words, **more):
        made.append(words)
        if len(made) == call:
            raise OSError(errno.EIO, os.strerror(errno.EIO))
        return function(*words, **more)

    return refuse


class InRoom(unittest.TestCase):
    def setUp(self):
        before = signal.pthread_sigmask(signal.SIG_BLOCK, [])
        self.addCleanup(signal.pthread_sigmask, signal.SIG_SETMASK, before)  # what delivers outputs is soon at its end, and holds signals back
        self.room = tempfile.TemporaryDirectory()
        self.addCleanup(self.room.cleanup)
        self.first, self.second = (os.path.join(self.room.name, name) for name in ("first", "second"))

    def deliver(self, outputs):
        try:
            files.deliver(outputs)
        finally:
            for output in outputs:
                output.end()

    def holds(self, expected):
        there = {}
        for name in os.listdir(self.room.name):
            with open(os.path.join(self.room.name, name), "rb") as file:
                there[name] = file.read()
        self.assertEqual(there, expected)


class Outputs(InRoom):
    def begun(self, force):
        outputs = [Output("FIRST", self.first, force), Output("SECOND", self.second, force)]
        files.begin(outputs)
        for output in outputs:
            os.write(output.descriptor, b"new")
        return outputs

    def old(self):
        for path in (self.first, self.second):
            with open(path, "wb") as file:
                file.write(b"old")

    def test_both(self):
        self.deliver(self.begun(False))
        self.holds({"first": b"new", "second": b"new"})

    def test_neither_new(self):
        with mock.patch("os.link", refusing(os.link, 2)), self.assertRaisesRegex(Failed, "second cannot be written: Input/output error$"):
            self.deliver(self.begun(False))
        self.holds({})

    def test_neither_replaced(self):
        self.old()
        with mock.patch("os.replace", refusing(os.replace, 2)), self.assertRaisesRegex(Failed, "second cannot be written: Input/output error$"):
            self.deliver(self.begun(True))
        self.holds({"first": b"old", "second": b"old"})

    def test_what_cannot_be_put_back_is_said(self):
        """A disk without second names keeps no old file."""
        self.old()
        with mock.patch("os.link", refusing(os.link, 1)), mock.patch("os.replace", refusing(os.replace, 2)):
            with self.assertRaisesRegex(Failed, "first is new already, and the old one could not be put back"):
                self.deliver(self.begun(True))
        self.holds({"first": b"new", "second": b"old"})

    def test_anothers_file_in_a_shared_folder(self):
        self.old()
        os.chmod(self.room.name, 0o1777)
        with mock.patch("os.geteuid", lambda: os.stat(self.first).st_uid + 1):
            with self.assertRaisesRegex(Failed, "first cannot be opened for writing: it is another's, in a folder where only its owner can replace it"):
                self.begun(True)
        self.holds({"first": b"old", "second": b"old"})

    def test_a_disk_that_takes_two_names_for_one(self):
        def one_name(function):
            return lambda *words, **more: function(*(w.lower() if isinstance(w, str) else w for w in words), **more)

        self.second = self.first.replace("first", "FIRST")
        with open(self.first, "wb") as file:
            file.write(b"old")
        with mock.patch("os.replace", one_name(os.replace)), mock.patch("os.link", one_name(os.link)), mock.patch("os.stat", one_name(os.stat)):
            with self.assertRaisesRegex(Failed, "FIRST and SECOND are one file"):
                self.deliver(self.begun(True))
        self.holds({"first": b"old"})

    def test_the_folder_is_not_on_the_disk(self):
        with mock.patch("os.fsync", refusing(os.fsync, 3)), self.assertRaisesRegex(Failed, "first is there, but perhaps not on the disk yet"):
            self.deliver(self.begun(False))
        self.holds({"first": b"new", "second": b"new"})

    def test_not_on_the_disk(self):
        with mock.patch("os.fsync", refusing(os.fsync, 2)), self.assertRaisesRegex(Failed, "second cannot be written"):
            self.deliver(self.begun(False))
        self.holds({})

    def test_what_came_meanwhile_stays(self):
        outputs = self.begun(False)
        with open(self.second, "wb") as file:
            file.write(b"another's")
        with self.assertRaisesRegex(Failed, "second cannot be written: File exists"):
            self.deliver(outputs)
        self.holds({"second": b"another's"})

    def test_a_disk_without_second_names(self):
        def link(*_, **__):
            raise OSError(errno.EPERM, os.strerror(errno.EPERM))

        outputs = self.begun(False)
        with mock.patch("os.link", link):
            self.deliver(outputs)
        self.holds({"first": b"new", "second": b"new"})


class Bodies(InRoom):
    """A body of six bytes is copied behind a head of four, two bytes at a time."""

    def setUp(self):
        super().setUp()
        self.write(b"inside")

    def write(self, data):
        with open(self.first, "wb") as file:
            file.write(data)

    def copy(self, meanwhile=None, call=2, first=0, length=6):
        """Something happens to the body just before one of the reads."""
        body, output, reads = LongInput("BODY 1", self.first), Output("FILE", self.second, False), []

        def pread(descriptor, wanted, at, real=os.pread):
            reads.append(wanted)
            if len(reads) == call and meanwhile:
                meanwhile()
            return real(descriptor, wanted, at)

        body.open()
        files.begin([output])
        os.write(output.descriptor, b"head")
        output.behind = [Stretch(body, first, length)]
        with mock.patch("files.PART", 2), mock.patch("os.pread", pread):
            self.deliver([output])
        self.assertLessEqual(max(reads), 2)

    def test_in_parts(self):
        self.copy()
        self.holds({"first": b"inside", "second": b"headinside"})

    def test_a_part_of_a_file(self):
        self.copy(first=2, length=3)
        self.holds({"first": b"inside", "second": b"headsid"})

    def test_an_empty_body(self):
        self.write(b"")
        self.copy(length=0)
        self.holds({"first": b"", "second": b"head"})

    def test_cut_off(self):
        with self.assertRaisesRegex(Failed, "first was cut off while it was copied: it had 6 bytes$"):
            self.copy(lambda: os.truncate(self.first, 3))
        self.holds({"first": b"ins"})

    def test_cut_off_behind_what_is_copied(self):
        with self.assertRaisesRegex(Failed, "first was cut off while it was copied"):
            self.copy(lambda: os.truncate(self.first, 5), call=1, length=2)
        self.holds({"first": b"insid"})

    def test_cut_off_and_made_anew(self):
        """Its size is the same again when it is looked at."""
        def once_more(*_):
            self.write(b"aslong")
            return b""

        with mock.patch("files.Stretch.read", once_more), self.assertRaisesRegex(Failed, "first was cut off while it was copied"):
            body, output = LongInput("BODY 1", self.first), Output("FILE", self.second, False)
            body.open()
            files.begin([output])
            output.behind = [Stretch(body, 0, 6)]
            self.deliver([output])
        self.holds({"first": b"aslong"})

    def test_grown(self):
        with self.assertRaisesRegex(Failed, "first grew while it was copied: it had 6 bytes$"):
            self.copy(lambda: self.write(b"insides"))
        self.holds({"first": b"insides"})

    def test_more_than_is_said(self):
        """A file of the system that says it has no bytes, and has some."""
        self.first = "/proc/self/status"
        with self.assertRaisesRegex(Failed, "/proc/self/status grew while it was copied: it had 0 bytes"):
            self.copy(length=0)
        self.holds({"first": b"inside"})

    def test_a_body_that_cannot_be_read(self):
        with mock.patch("os.pread", refusing(os.pread, 1)), self.assertRaisesRegex(Failed, "first cannot be read: Input/output error"):
            self.copy()
        self.holds({"first": b"inside"})

    def test_an_archive_that_cannot_be_written(self):
        with mock.patch("files.write_all", refusing(files.write_all, 2)), self.assertRaisesRegex(Failed, "second cannot be written: Input/output error"):
            self.copy()
        self.holds({"first": b"inside"})


class Kept(InRoom):
    """What a pipe gives is kept on the disk, in a file without a name."""

    def piped(self, data, most):
        source, to = os.pipe()
        os.write(to, data)
        os.close(to)
        piped = LongInput("BODY 1", f"/dev/fd/{source}")
        piped.most, piped.folders = most, [self.room.name]
        piped.open()
        os.close(source)
        return os.pread(piped.descriptor, 100, 0), piped.length

    def test_on_the_disk(self):
        self.assertEqual(self.piped(b"inside", 6), (b"inside", 6))
        self.holds({})

    def test_no_more_than_shows_that_it_is_too_long(self):
        self.assertEqual(self.piped(b"insides..", 6), (b"insides", 7))

    def test_a_disk_without_such_files(self):
        def without(name, flags, *more, real=os.open, **named):
            if flags & os.O_TMPFILE == os.O_TMPFILE:
                raise OSError(errno.EOPNOTSUPP, os.strerror(errno.EOPNOTSUPP))
            return real(name, flags, *more, **named)

        with mock.patch("os.open", without):
            self.assertEqual(self.piped(b"inside", 6), (b"inside", 6))
        self.holds({})

    def test_another_folder(self):
        os.close(files.unnamed([self.first, self.room.name]))
        self.holds({})

    def test_no_folder(self):
        with self.assertRaises(FileNotFoundError):
            files.unnamed([self.first, self.second])


class Streams(unittest.TestCase):
    def test_a_pipe_that_does_not_wait(self):
        data, taken = bytes(range(256)) * 2000, []
        source, to = os.pipe()
        os.set_blocking(to, False)
        os.set_blocking(source, False)

        def take():
            while sum(map(len, taken)) < len(data):
                taken.append(files.read_part(source, 1000))

        thread = threading.Thread(target=take)
        thread.start()
        files.write_all(to, data)
        thread.join()
        self.assertEqual(b"".join(taken), data)

    def test_a_signal_ends_the_wait(self):
        """Also one that came before it: the pipe gives nothing, and without it the wait would not end."""
        silent, told = os.pipe(), os.pipe()
        os.write(told[1], b"x")
        waiter = threading.Thread(target=files.wait_for, args=(silent[0],), daemon=True)
        with mock.patch.object(files, "signalled", told[0]):
            waiter.start()
            waiter.join(10)
        self.assertFalse(waiter.is_alive())


if __name__ == "__main__":
    unittest.main()
