"""Refusals: what they say and carry. And the version."""

import copy
import os
import pickle
import unittest

from common import REPOSITORY, coded, flip, refusal, use, zr400

SENTENCE = "a buffer's length is not the stated one"


class Told(zr400.Refused):
    """A kind of a user's own, which begins in another way."""

    def __init__(self, story):
        super().__init__(4, 7)
        self.story = story


class Answering:
    """A library that answers this to every call."""

    def __init__(self, *answer):
        self.answer = answer

    def call(self, which, numbers, loans):
        return self.answer


class Refusals(unittest.TestCase):
    def test_sentence_and_place(self):
        capture = bytearray(coded(1)[2])
        flip(capture, 1234, 0)
        flip(capture, 1234, 5)
        with self.assertRaises(zr400.Refused) as caught:
            zr400.read(1, 7, capture)
        refused = caught.exception
        self.assertEqual((refused.number, refused.place, refused.sentence), (4, 1234, "reading: a word beyond repair"))
        self.assertEqual(str(refused), "refused 4 at word 1234: reading: a word beyond repair")
        self.assertEqual(pickle.loads(pickle.dumps(refused)).place, 1234)

    def test_numbers_of_no_64_bits(self):
        for call in (
            lambda: zr400.run(-1, 1),
            lambda: zr400.runs(1, 2**64),
            lambda: zr400.map_window(2**70, 1, 2, b""),
            lambda: zr400.unmap_window(1, -1, 2, b""),
            lambda: zr400.code(-1, 0, b"", b""),
            lambda: zr400.read(1, 2**64, b""),
            lambda: zr400.edit(10**30, 0, b"", b"", bytearray()),
            lambda: zr400.information(1, -1, b""),
        ):
            self.assertEqual(refusal(call), "number 1 place 0 count 0")

    def test_a_wrong_length_is_told(self):
        information, parity, _ = coded(1)
        with self.assertRaises(zr400.Refused) as caught:
            zr400.code(1, 7, parity, information)
        refused = caught.exception
        told = "information has 10240 bytes, and 152915 are wanted; parity has 152915 bytes, and 10240 are wanted"
        self.assertEqual(str(refused), f"refused 2 at buffer 1, the information: {SENTENCE}: {told}")
        self.assertEqual((refused.number, refused.place, refused.sentence), (2, 1, SENTENCE))
        self.assertEqual((refused.buffer, refused.length, refused.wanted), ("information", 10240, 152915))

    def test_every_buffer_has_its_name(self):
        for call, place, title, buffer, length, wanted in (
            (lambda: zr400.map_window(10220, 1, 2, b"12", bytearray(257)), 1, "groups", "groups", 2, 257),
            (lambda: zr400.map_window(0, 1, 2, b"", bytearray(3)), 2, "window", "window", 3, 257),
            (lambda: zr400.unmap_window(0, 1, 2, b"12", bytearray()), 1, "window", "window", 2, 257),
            (lambda: zr400.unmap_window(10220, 1, 2, bytes(257), bytearray(3)), 2, "groups", "groups", 3, 257),
            (lambda: zr400.information(2, 0, b"123"), 1, "information", "info", 3, 305830),
            (lambda: zr400.code(1, 7, bytes(152915), bytes(10240), bytearray(5)), 3, "capture", "capture", 5, 183296),
            (lambda: zr400.read(1, 7, b"", bytearray(152915)), 1, "capture", "capture", 0, 183296),
            (lambda: zr400.read(1, 7, bytes(183296), bytearray(1)), 2, "information", "information", 1, 152915),
            (lambda: zr400.read(1, 7, bytes(183296), None, bytearray(1)), 3, "parity", "parity", 1, 10240),
            (lambda: zr400.edit(1, 0, bytes(32), bytes(2048), bytearray(183296)), 1, "client block", "bits", 32, 33),
            (lambda: zr400.edit(1, 0, bytes(33), bytes(2047), bytearray(183296)), 2, "parity", "parity", 2047, 2048),
            (lambda: zr400.edit(2, 0, bytes(33), bytes(2048), bytearray(183296)), 3, "capture", "capture", 183296, 358912),
        ):
            with self.assertRaises(zr400.Refused) as caught:
                call()
            refused = caught.exception
            self.assertEqual((refused.number, refused.place, refused.buffer), (2, place, buffer))
            self.assertEqual((refused.length, refused.wanted), (length, wanted))
            told = f"{buffer} has {length} bytes, and {wanted} are wanted"
            self.assertEqual(str(refused), f"refused 2 at buffer {place}, the {title}: {SENTENCE}: {told}")

    def test_a_spare_bit_is_told(self):
        for call, title, buffer in (
            (lambda: zr400.map_window(10216, 1, 2, b"\1" * 129), "groups", "groups"),
            (lambda: zr400.edit(1, 6, b"\1" * 33, bytes(2048), bytearray(coded(1)[2])), "client block", "bits"),
        ):
            with self.assertRaises(zr400.Refused) as caught:
                call()
            refused = caught.exception
            self.assertEqual((refused.number, refused.place, refused.buffer, refused.length, refused.wanted), (3, 1, buffer, None, None))
            self.assertEqual(str(refused), f"refused 3 at buffer 1, the {title}: a spare bit is not zero")

    def test_the_place_is_the_librarys(self):
        wrong = "information has 1 bytes, and 152915 are wanted; parity has 2 bytes, and 10240 are wanted; capture has 3 bytes, and 183296 are wanted"
        for place, at, buffer, length, wanted in (
            (1, " at buffer 1, the information", "information", 1, 152915),
            (3, " at buffer 3, the capture", "capture", 3, 183296),
            (0, "", None, None, None),  # no call has these places; another library may
            (4, " at buffer 4", None, None, None),
        ):
            use(self, Answering(2, place, 0))
            with self.assertRaises(zr400.Refused) as caught:
                zr400.code(1, 7, bytes(1), bytes(2), bytearray(3))
            refused = caught.exception
            self.assertEqual((refused.place, refused.buffer, refused.length, refused.wanted), (place, buffer, length, wanted))
            self.assertEqual(str(refused), f"refused 2{at}: {SENTENCE}: {wrong}")

    def test_made_by_hand(self):
        self.assertEqual(str(zr400.Refused(2, 3)), f"refused 2 at buffer 3: {SENTENCE}")
        self.assertEqual(str(zr400.Refused(3, 1)), "refused 3 at buffer 1: a spare bit is not zero")
        self.assertEqual(str(zr400.Refused(2)), f"refused 2: {SENTENCE}")
        self.assertEqual(str(zr400.Refused(4)), "refused 4 at word 0: reading: a word beyond repair")
        self.assertEqual((zr400.Refused(2, 3).place, zr400.Refused(2, 3).buffer), (3, None))

    def test_other_numbers_tell_of_no_buffer(self):
        with self.assertRaises(zr400.Refused) as caught:
            zr400.code(9, 7, b"", b"")
        refused = caught.exception
        self.assertEqual((refused.number, refused.buffer, refused.length, refused.wanted), (1, None, None, None))
        self.assertEqual(str(refused), "refused 1: a number is outside its stated set")

    def test_a_copy_of_a_kind_of_ones_own(self):
        kept = pickle.loads(pickle.dumps(Told("a story")))
        self.assertEqual((kept.number, kept.story, str(kept)), (4, "a story", str(zr400.Refused(4, 7))))

    def test_a_copy_is_the_same(self):
        for call in (lambda: zr400.code(1, 7, b"", b"123"), lambda: zr400.map_window(10216, 1, 2, b"\1" * 129)):
            with self.assertRaises(zr400.Refused) as caught:
                call()
            refused = caught.exception
            refused.remark = "added by a caller"
            for other in (pickle.loads(pickle.dumps(refused)), copy.copy(refused), copy.deepcopy(refused)):
                self.assertIs(type(other), zr400.Refused)
                self.assertEqual((str(other), other.args, vars(other)), (str(refused), refused.args, vars(refused)))


class Version(unittest.TestCase):
    def test_the_version_is_that_of_the_one_file(self):
        with open(os.path.join(REPOSITORY, "VERSION"), encoding="ascii") as text:
            self.assertEqual(zr400.__version__ + "\n", text.read())
        self.assertRegex(zr400.__version__, r"^\d+\.\d+\.\d+$")


if __name__ == "__main__":
    unittest.main()
