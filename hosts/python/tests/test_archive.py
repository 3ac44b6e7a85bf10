"""Capture files: the two calls against the second program's text, and what may be lent to them."""

import array
import ctypes
import re
import unittest

from common import digest, numpy, refusal, text_of, zr400

LAST = 2**64 - 1
SENTENCE = "a buffer's length is not the stated one"
EMPTY = b"400ZR CAPTURE 1\n\0\1\1\0\0\0\x1b\0\0\0\0"
"""A capture file with one information body of length 0: it has nothing but its head."""


def digest_of_numbers(numbers):
    return digest(b"".join(number.to_bytes(8, "big") for number in numbers))


def kinds_of(length):
    return [1 + i % 3 for i in range(length)]


def lengths_of(length, at, other):
    return [other if i == at else 1000 * (i + 1) for i in range(length)]


def file_of(n, f, w):
    """The first bytes of a file with a head by the rule, whatever its count, and zeros behind it."""
    head, start = bytearray(b"400ZR CAPTURE 1\n" + n.to_bytes(2, "big")), 18 + 9 * n
    for kind, length in zip(kinds_of(n), lengths_of(n, f, w)):
        head += bytes([kind]) + (start % 2**32).to_bytes(4, "big") + length.to_bytes(4, "big")
        start += length
    return head + bytes(400 - len(head))


class Vectors(unittest.TestCase):
    """Each line of the text has the whole call, and what it answered and left."""

    def lines(self, verb):
        lines = [line for line in text_of("crates", "test_archive", "stdout") if line.startswith(verb)]
        self.assertGreater(len(lines), 100)
        for line in lines:
            asked = line[: line.index(" number ")]
            yield line, asked, [int(number) for number in re.findall(r"\d+", asked)]

    def test_writes(self):
        for line, asked, (n, a, b, h, e, v, f, w) in self.lines("write "):
            kinds, head = kinds_of(a), bytearray(b"\x5a") * h
            if e < a:
                kinds[e] = v
            answer = refusal(lambda: zr400.archive_write(n, kinds, lengths_of(b, f, w), head))
            answer = f"number 0 place 0 count {zr400.head_length(n)}" if answer == "granted" else answer
            self.assertEqual(f"{asked} {answer} head {digest(head)}", line)

    def test_reads(self):
        for line, asked, (n, f, w, size, *sets, a, k, o, l) in self.lines("read "):
            whole = file_of(n, f, w)
            for at, byte in zip(sets[::2], sets[1::2]):
                if at < len(whole):
                    whole[at] = byte
            lists = [array.array("Q", [7] * length) for length in (k, o, l)]
            first = whole[: max(0, min(size, 306) + a - 1)]
            answer = refusal(lambda: zr400.archive_read(size, first, *lists))
            if answer == "granted":
                answer = f"number 0 place 0 count {zr400.archive_read(size, first, *lists).count}"
            left = digest_of_numbers(number for numbers in lists for number in numbers)
            self.assertEqual(f"{asked} {answer} lists {left}", line)


class Lists(unittest.TestCase):
    def test_every_kind_of_list_that_is_read(self):
        head = zr400.archive_write(3, [1, 2, 3], [5, 0, 7])
        kinds = [(1, 2, 3), range(1, 4), iter([1, 2, 3]), b"\1\2\3", array.array("Q", [1, 2, 3]), array.array("L", [1, 2, 3])]
        kinds += [array.array("b", [1, 2, 3]), memoryview(array.array("Q", [1, 2, 3])), (ctypes.c_uint64 * 3)(1, 2, 3)]
        if numpy is not None:
            kinds += [numpy.array([1, 2, 3], dtype=form) for form in ("u8", ">u8", "i1", "i8")]
        for lent in kinds:
            self.assertEqual(zr400.archive_write(3, lent, [5, 0, 7]), head, lent)

    def test_every_kind_of_list_that_is_written(self):
        lists = [array.array("Q", [7] * 32), memoryview(array.array("L", [7] * 32)), (ctypes.c_uint64 * 32)(*[7] * 32)]
        if numpy is not None:
            lists.append(numpy.full(32, 7, dtype=numpy.uint64))
        for lent in lists:
            table = zr400.archive_read(27, EMPTY, offsets=lent)
            self.assertIs(table.offsets, lent)
            self.assertEqual(list(lent), [27] + [7] * 31, type(lent))

    def test_the_file_of_the_request(self):
        self.assertEqual(zr400.archive_write(1, [1], [0]), EMPTY)

    def test_lists_that_are_made(self):
        table = zr400.archive_read(27, EMPTY)
        self.assertEqual((table.kinds[0], table.offsets[0], table.lengths[0], table.count), (1, 27, 0, 1))
        self.assertEqual([len(numbers) for numbers in table[:3]], [32, 32, 32])

    def test_what_is_no_list(self):
        items = "^offsets has items of format .*: a list must be unsigned numbers of 64 bits"
        for lent, told in (
            (bytearray(256), items), (array.array("q", bytes(256)), items), (array.array("d", bytes(256)), items),
            (array.array("I", bytes(256)), items), ((ctypes.c_void_p * 32)(), items), ((ctypes.c_uint64.__ctype_be__ * 32)(), items),
            ([7] * 32, "^offsets cannot be lent: "), (object(), "^offsets cannot be lent: "),
            (memoryview(array.array("Q", bytes(512)))[::2], "^offsets cannot be lent: its bytes do not stand one after the other"),
            (memoryview(bytes(256)).cast("Q"), "^offsets cannot be lent: it is an output, and cannot be written"),
        ):
            with self.assertRaisesRegex(TypeError, told):
                zr400.archive_read(27, EMPTY, None, lent)
        with self.assertRaisesRegex(TypeError, "^head has items of format 'Q' and 8 bytes: an output must be plain bytes"):
            zr400.archive_write(1, [1], [0], array.array("Q", bytes(24)))
        with self.assertRaisesRegex(TypeError, "^first cannot be lent: "):
            zr400.archive_read(27, "text")

    def test_what_is_no_list_of_whole_numbers(self):
        for wrong in ([1.0], ["1"], [None], "1", 1, None, array.array("d", [1])):
            for name, call in (
                ("kinds", lambda: zr400.archive_write(1, wrong, [0])),
                ("lengths", lambda: zr400.archive_write(1, [1], wrong)),
            ):
                with self.assertRaisesRegex(TypeError, f"^{name} must be whole numbers, and is "):
                    call()

    def test_what_is_no_whole_number(self):
        for name, call in (
            ("count", zr400.head_length), ("count", lambda x: zr400.archive_write(x, [1], [0])), ("size", lambda x: zr400.archive_read(x, EMPTY)),
        ):
            for number in (1.5, 2.0, "2", None):
                with self.assertRaises(TypeError) as caught:
                    call(number)
                self.assertEqual(str(caught.exception), f"{name} must be a whole number, and is {number!r}")

    def test_buffers_that_share_memory(self):
        room = array.array("Q", bytes(640))
        view = memoryview(room)
        plain = view.cast("B")
        for first, second, call in (
            ("first", "kinds", lambda: zr400.archive_read(27, plain[:27], view[3:35])),
            ("kinds", "lengths", lambda: zr400.archive_read(27, EMPTY, view[:32], None, view[31:63])),
            ("offsets", "lengths", lambda: zr400.archive_read(27, EMPTY, None, room, room)),
            ("kinds", "head", lambda: zr400.archive_write(1, view[:1], [0], plain[7:34])),
            ("lengths", "head", lambda: zr400.archive_write(1, [1], view[:1], plain[:27])),
        ):
            with self.assertRaises(ValueError) as caught:
                call()
            self.assertNotIsInstance(caught.exception, zr400.Refused)
            self.assertRegex(str(caught.exception), f"^{first} and {second} share memory")
        self.assertEqual(room, array.array("Q", bytes(640)))
        zr400.archive_read(27, EMPTY, view[:32], None, view[32:64])  # neighbours
        room[0] = 3
        self.assertEqual(zr400.archive_write(1, view[:1], view[:1]), zr400.archive_write(1, [3], [3]))  # two that are read may

    def test_no_loan_is_left(self):
        numbers, head = array.array("Q", [9]), bytearray(5)
        for call in (
            lambda: zr400.archive_write(1, numbers, numbers, head),
            lambda: zr400.archive_read(27, head, numbers),
            lambda: zr400.archive_read(27, EMPTY, numbers, head),
        ):
            try:
                call()
            except (TypeError, ValueError):
                numbers.append(9)  # while the error still holds on to where it was raised; a loan forbids this
                head.append(0)
        self.assertEqual((len(numbers), len(head)), (4, 8))


class Refusals(unittest.TestCase):
    def test_numbers_of_no_64_bits(self):
        for call in (
            lambda: zr400.archive_write(-1, [], []),
            lambda: zr400.archive_write(2**64, [], []),
            lambda: zr400.archive_read(-1, b""),
            lambda: zr400.archive_read(2**64, b""),
            lambda: zr400.archive_write(1, [2**64 + 1], [0]),
            lambda: zr400.archive_write(1, [-1], [0]),
            lambda: zr400.archive_write(1, [1], [2**64]),
            lambda: zr400.archive_write(1, [1], [-1]),
        ):
            self.assertEqual(refusal(call), "number 1 place 0 count 0")
        # an entry that was not handed in has no number outside its set
        self.assertEqual(refusal(lambda: zr400.archive_write(1, [1, -1], [0, 2**64])), "number 2 place 1 count 0")

    def test_every_buffer_has_its_name(self):
        made = [array.array("Q", bytes(8 * length)) for length in (31, 32, 33)]
        for call, place, title, buffer, length, wanted, items in (
            (lambda: zr400.archive_write(2, [1], [0, 0]), 1, "kinds", "kinds", 1, 2, "numbers"),
            (lambda: zr400.archive_write(2, [1, 1], [0, 0, 0]), 2, "lengths", "lengths", 3, 2, "numbers"),
            (lambda: zr400.archive_write(2, [1, 1], [0, 0], bytearray(35)), 3, "head", "head", 35, 36, "bytes"),
            (lambda: zr400.archive_read(27, EMPTY + b"\0"), 1, "first bytes", "first", 28, 27, "bytes"),
            (lambda: zr400.archive_read(10**6, EMPTY), 1, "first bytes", "first", 27, 306, "bytes"),
            (lambda: zr400.archive_read(27, EMPTY, made[0]), 2, "kinds", "kinds", 31, 32, "numbers"),
            (lambda: zr400.archive_read(27, EMPTY, None, made[2]), 3, "offsets", "offsets", 33, 32, "numbers"),
            (lambda: zr400.archive_read(27, EMPTY, None, None, array.array("Q")), 4, "lengths", "lengths", 0, 32, "numbers"),
        ):
            with self.assertRaises(zr400.Refused) as caught:
                call()
            refused = caught.exception
            self.assertEqual((refused.number, refused.place, refused.buffer), (2, place, buffer))
            self.assertEqual((refused.length, refused.wanted), (length, wanted))
            told = f"{buffer} has {length} {items}, and {wanted} are wanted"
            self.assertEqual(str(refused), f"refused 2 at buffer {place}, the {title}: {SENTENCE}: {told}")

    def test_the_place_is_told(self):
        def told(*sets):
            first = file_of(2, 99, 0)[:306]
            for at, byte in sets:
                first[at] = byte
            with self.assertRaises(zr400.Refused) as caught:
                zr400.archive_read(3036, first)
            return str(caught.exception)

        table = "archive: count missing or outside 1..32, or a kind outside 1..3 in a whole entry"
        self.assertEqual(told((15, 0)), "refused 10: archive: fewer than 16 bytes, or the first bytes differ")
        self.assertEqual(told((17, 0)), f"refused 11: {table}")
        self.assertEqual(told((27, 0)), f"refused 11 at entry 2: {table}")
        self.assertEqual(told((22, 9)), "refused 12 at entry 1: archive: an entry cut off, or an offset or the end not where the rule puts it")

    def test_a_refusal_changes_nothing(self):
        numbers = [array.array("Q", [LAST] * 32) for _ in range(3)]
        head = bytearray(b"\x5a" * 27)
        self.assertEqual(refusal(lambda: zr400.archive_read(28, EMPTY + b"\0", *numbers)), "number 12 place 1 count 0")
        self.assertEqual(refusal(lambda: zr400.archive_write(1, [4], [0], head)), "number 1 place 0 count 0")
        self.assertEqual((numbers, head), ([array.array("Q", [LAST] * 32)] * 3, b"\x5a" * 27))


if __name__ == "__main__":
    unittest.main()
