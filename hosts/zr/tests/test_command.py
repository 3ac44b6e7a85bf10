"""The words of the commands on archives, and what is made of a table: what hosts/check-zr tries once or twice, since each start takes a while.

    python3 -m unittest discover -s hosts/zr/tests
"""

import os
import sys
import tempfile
import unittest
from unittest import mock

sys.path.insert(0, os.path.dirname(os.path.dirname(os.path.abspath(__file__))))

import command  # noqa: E402
from files import Failed  # noqa: E402

TABLE = "1 information 36 0\n2 capture 36 5\n"


def made(*words, force=False):
    return command.ON_ARCHIVES[words[0]](words[0], command.roles(words[0], len(words) - 1), words[1:], force)


class Words(unittest.TestCase):
    def test_how_many(self):
        taken = {name: [n for n in range(8) if command.roles(name, n) is not None] for name in ("pack", "list", "unpack", "runs", "nothing")}
        self.assertEqual(taken, {"pack": [3, 5, 7], "list": [1], "unpack": [3], "runs": [1], "nothing": []})

    def test_pack(self):
        packed = made("pack", "none", "capture", "a", "information", "b")
        self.assertEqual(packed.kinds, ["capture", "information"])
        self.assertEqual([(i.role, i.name) for i in packed.inputs], [("BODY 1", "a"), ("BODY 2", "b")])
        self.assertEqual([(o.role, o.name) for o in packed.outputs], [("FILE", "none")])

    def test_kinds(self):
        for word in ("Capture", "captures", "3", "", " capture"):
            with self.assertRaisesRegex(Failed, f"^KIND must be information, parity or capture, and is '?{word}'?$"):
                made("pack", "none", "parity", "a", word, "b")

    def test_entries(self):
        for word in ("first", "-1", "1x", "", "0x1", "1.0"):
            with self.assertRaisesRegex(Failed, f"^ENTRY must be a whole number in decimal, and is '?{word}'?$"):
                made("unpack", "all", word, "none")

    def test_one_standard_input(self):
        with self.assertRaisesRegex(Failed, "^BODY 1 and BODY 3 cannot both be standard input$"):
            made("pack", "none", "parity", "-", "parity", "a", "parity", "-")

    def test_the_help_has_every_command(self):
        for name in (*command.COMMANDS, "pack"):
            self.assertRegex(command.HELP, rf"(?m)^zr {name} ")


class Tables(unittest.TestCase):
    def setUp(self):
        self.room = tempfile.TemporaryDirectory()
        self.addCleanup(self.room.cleanup)
        self.file, self.out = (os.path.join(self.room.name, name) for name in ("file", "out"))
        with open(self.file, "wb") as file:
            file.write(bytes(36) + b"inner")

    def unpack(self, entry, table=TABLE):
        """The launcher goes by what the program says, and looks at nothing of the file itself."""
        unpacked, said = made("unpack", self.file, entry, self.out), []
        with mock.patch("command.asked", lambda *_: table), mock.patch("command.say", said.append), mock.patch("signal.pthread_sigmask"):
            unpacked.open()
            try:
                status = unpacked.run([])
            finally:
                unpacked.end()
        return status, "".join(said)

    def test_a_body(self):
        self.assertEqual(self.unpack("2"), (0, "done: capture, 5 bytes\n"))
        with open(self.out, "rb") as out:
            self.assertEqual(out.read(), b"inner")

    def test_one_byte(self):
        self.assertEqual(self.unpack("1", "1 parity 40 1\n"), (0, "done: parity, 1 byte\n"))

    def test_no_such_entry(self):
        for entry in ("0", "3", "33", "18446744073709551617"):
            with self.assertRaisesRegex(Failed, f"file has no entry {entry}: its entries are 1 to 2$"):
                self.unpack(entry)
        self.assertEqual(os.listdir(self.room.name), ["file"])

    def test_refused(self):
        self.assertEqual(self.unpack("1", "refused 10: ..\n"), (1, "refused 10: ..\n"))
        self.assertEqual(os.listdir(self.room.name), ["file"])


if __name__ == "__main__":
    unittest.main()
