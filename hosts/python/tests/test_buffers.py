"""Buffers and numbers: what may be lent and how, what may not, and what the errors say."""

import array
import ctypes
import mmap
import unittest

from common import coded, numpy, refusal, zr400


class Kinds(unittest.TestCase):
    def test_every_kind_of_input(self):
        information, parity, capture = coded(1)
        mapped = mmap.mmap(-1, len(information))
        mapped[:] = information
        kinds = [bytearray(information), memoryview(information), array.array("B", information), mapped]
        if numpy is not None:
            kinds.append(numpy.frombuffer(information, dtype=numpy.uint8))
        for lent in kinds:
            self.assertEqual(zr400.code(1, 7, lent, parity), capture, type(lent))

    def test_outputs_are_filled_in_place(self):
        information, parity, capture = coded(1)
        wide = bytearray(b"\xa5") * (len(capture) + 20)
        part = memoryview(wide)[10:-10]
        self.assertIs(zr400.code(1, 7, information, parity, part), part)
        self.assertEqual(wide, b"\xa5" * 10 + capture + b"\xa5" * 10)
        reading = zr400.read(1, 7, capture)
        self.assertEqual((reading.information, reading.parity, reading.repaired), (information, parity, 0))

    @unittest.skipIf(numpy is None, "numpy is not installed")
    def test_numpy(self):
        information, parity, capture = coded(1)
        lent = numpy.frombuffer(information, dtype=numpy.uint8)
        out = numpy.zeros(zr400.capture_length(1), dtype=numpy.uint8)
        self.assertIs(zr400.code(1, 7, lent, numpy.frombuffer(parity, dtype=numpy.uint8), out), out)
        self.assertEqual(out.tobytes(), capture)
        zr400.edit(1, 6, bytes(33), bytes(2048), out)
        self.assertNotEqual(out.tobytes(), capture)
        with self.assertRaisesRegex(TypeError, "^information cannot be lent: "):
            zr400.code(1, 7, numpy.zeros(2 * len(information), dtype=numpy.uint8)[::2], parity)

    def test_what_cannot_be_lent(self):
        information, parity, capture = coded(1)
        with self.assertRaisesRegex(TypeError, "^information cannot be lent: "):
            zr400.code(1, 7, "text", parity)
        with self.assertRaisesRegex(TypeError, "^capture cannot be lent: it is an output, and cannot be written"):
            zr400.code(1, 7, information, parity, bytes(len(capture)))
        with self.assertRaisesRegex(TypeError, "^information cannot be lent: its bytes do not stand one after the other"):
            zr400.code(1, 7, memoryview(information + information)[::2], parity)

    def test_beside_another_user_of_the_c_api(self):
        """A program may have told ctypes.pythonapi of types of its own."""
        functions = ctypes.pythonapi.PyObject_GetBuffer, ctypes.pythonapi.PyBuffer_Release
        before = [function.argtypes for function in functions]
        try:
            for function in functions:
                function.argtypes = [ctypes.c_char_p]
            self.assertEqual(zr400.unmap_window(0, 1, 2, bytes(257)), b"")
        finally:
            for function, types in zip(functions, before):
                function.argtypes = types

    def test_a_part_is_the_buffer_itself(self):
        info = bytearray(coded(1)[0])
        part = zr400.information(1, 2, info)
        info[2 * 30583] ^= 0xFF
        self.assertEqual(part[0], info[2 * 30583])

    def test_empty_buffers(self):
        self.assertEqual(zr400.unmap_window(0, 1, 2, bytes(257)), b"")
        self.assertEqual(zr400.map_window(0, 1, 2, b""), bytes(257))
        self.assertEqual(refusal(lambda: zr400.code(1, 7, b"", b"")), "number 2 place 1 count 0")


class Formats(unittest.TestCase):
    def test_outputs_are_plain_bytes(self):
        information, parity, capture = coded(1)
        length = len(capture)
        whole = [bytearray(length), array.array("B", bytes(length)), array.array("b", bytes(length)), mmap.mmap(-1, length)]
        whole += [(ctypes.c_ubyte * length)(), ctypes.create_string_buffer(length), memoryview(bytearray(length)).cast("c")]
        whole.append(memoryview(bytearray(length)).cast("B", (8, length // 8)))
        if numpy is not None:
            whole += [numpy.zeros(length, dtype=numpy.uint8), numpy.zeros((length // 8, 8), dtype=numpy.int8)]
        for lent in whole:
            self.assertIs(zr400.code(1, 7, information, parity, lent), lent)
            self.assertEqual(memoryview(lent).tobytes(), capture, type(lent))

    def outputs_of_no_bytes(self, length):
        class Wide(ctypes.Union):
            _fields_ = [("o", ctypes.py_object)]

        yield "<O", (ctypes.py_object * (length // 8))()
        yield "<P", (ctypes.c_void_p * (length // 8))()
        yield "B", (Wide * (length // 8))()
        yield "H", array.array("H", bytes(length))
        yield "Q", memoryview(bytearray(length)).cast("Q")
        yield "?", memoryview(bytearray(length)).cast("?")
        if numpy is not None:
            yield "O", numpy.array([None] * (length // 8), dtype=object)
            yield "?", numpy.zeros(length, dtype=bool)

    def test_other_outputs_are_none(self):
        information, parity, capture = coded(1)
        for form, lent in self.outputs_of_no_bytes(len(capture)):
            before = memoryview(lent).tobytes()
            with self.assertRaises(TypeError) as caught:
                zr400.code(1, 7, information, parity, lent)
            self.assertRegex(str(caught.exception), "^capture has items of format ")
            self.assertIn(repr(form), str(caught.exception))
            self.assertEqual(memoryview(lent).tobytes(), before)

    def test_every_output_is_held_to_it(self):
        objects = (ctypes.py_object * 4)()
        for name, call in (
            ("window", lambda: zr400.map_window(0, 1, 2, b"", objects)),
            ("groups", lambda: zr400.unmap_window(0, 1, 2, bytes(257), objects)),
            ("information", lambda: zr400.read(1, 7, b"", objects, bytearray())),
            ("parity", lambda: zr400.read(1, 7, b"", bytearray(), objects)),
            ("capture", lambda: zr400.edit(1, 0, b"", b"", objects)),
        ):
            with self.assertRaisesRegex(TypeError, f"^{name} has items of format '<O' "):
                call()

    def test_no_loan_is_left(self):
        wide, capture = array.array("H", bytes(8)), bytearray(8)
        for call in (
            lambda: zr400.map_window(0, 1, 2, b"", wide),
            lambda: zr400.code(1, 7, b"", b"", capture),
            lambda: zr400.code(1, 7, capture, b"", capture),
        ):
            try:
                call()
            except (TypeError, ValueError):
                wide.append(0)  # while the error still holds on to where it was raised; a loan forbids this
                capture.append(0)
        self.assertEqual((len(wide), len(capture)), (7, 11))

    def test_inputs_of_any_numbers(self):
        information, parity, capture = coded(1)

        class Pair(ctypes.Structure):
            _fields_ = [("OP", ctypes.c_uint16), ("P&", ctypes.c_ubyte * 2)]

        kinds = [array.array(code, parity) for code in "bBhHiIlLqQfd"] + [(Pair * (len(parity) // 4)).from_buffer_copy(parity)]
        if numpy is not None:
            for form in ("u2", ">u4", "f4", "c8", "S4", "V4", [("OP", "u1"), ("P", "<u4"), ("O", "u1", 3)]):
                kinds.append(numpy.frombuffer(parity, dtype=form))
        for lent in kinds:
            self.assertEqual(zr400.code(1, 7, information, lent), capture, memoryview(lent).format)

    def test_inputs_of_objects_and_pointers(self):
        class Mixed(ctypes.Structure):
            _fields_ = [("n", ctypes.c_uint64), ("o", ctypes.POINTER(ctypes.c_int))]

        kinds = [ctypes.py_object, ctypes.c_void_p, ctypes.c_char_p, ctypes.c_wchar_p, Mixed, ctypes.CFUNCTYPE(None)]
        lent = [(kind * 4)() for kind in kinds]
        if numpy is not None:
            lent += [numpy.array([None] * 4), numpy.zeros(4, dtype=[("a", "u8"), ("b", object)])]
        for objects in lent:
            with self.assertRaisesRegex(TypeError, "^parity has items of format .*: objects and pointers cannot be lent"):
                zr400.code(1, 7, b"", objects)


class Overlap(unittest.TestCase):
    def refused(self, first, second, call):
        with self.assertRaises(ValueError) as caught:
            call()
        self.assertNotIsInstance(caught.exception, zr400.Refused)
        self.assertRegex(str(caught.exception), f"^{first} and {second} share memory")

    def test_an_output_over_an_input(self):
        information, parity, capture = coded(1)
        room = memoryview(bytearray(len(information) + len(parity) + len(capture)))
        for name, length, call in (
            ("information", len(information), lambda i, c: zr400.code(1, 7, i, parity, c)),
            ("parity", len(parity), lambda p, c: zr400.code(1, 7, information, p, c)),
        ):
            for at, c in ((0, length - 1), (len(capture) - 1, 0), (50, 50)):  # a byte at either end; the beginning
                before = bytes(room)
                self.refused(name, "capture", lambda: call(room[at : at + length], room[c : c + len(capture)]))
                self.assertEqual(room, before)

    def test_every_call_with_an_output(self):
        room = memoryview(bytearray(400000))
        coded_, info, parity = room[:183296], room[183295 : 183295 + 152915], room[:10240]
        self.refused("capture", "information", lambda: zr400.read(1, 7, coded_, info))
        self.refused("capture", "parity", lambda: zr400.read(1, 7, coded_, bytearray(152915), parity))
        self.refused("information", "parity", lambda: zr400.read(1, 7, bytes(183296), room[:152915], room[152914:163154]))
        self.refused("information", "parity", lambda: zr400.read(1, 7, bytes(183296), room, room))
        self.refused("bits", "capture", lambda: zr400.edit(1, 0, room[100:133], bytes(2048), coded_))
        self.refused("parity", "capture", lambda: zr400.edit(1, 0, bytes(33), room[100:2148], coded_))
        self.refused("groups", "window", lambda: zr400.map_window(10220, 1, 2, room[:257], room[256:513]))
        self.refused("window", "groups", lambda: zr400.unmap_window(10220, 1, 2, room[256:513], room[:257]))

    def test_neighbours_and_empty_buffers_and_two_inputs(self):
        room = bytearray(range(256)) * 3
        view = memoryview(room)
        zr400.map_window(10220, 1, 2, view[:257], view[257:514])
        self.assertEqual(room[257:514], room[:257])
        zr400.map_window(0, 1, 2, view[300:300], view[257:514])
        self.assertEqual(room[257:514], bytes(257))
        information, parity, _ = coded(1)
        apart = zr400.code(1, 7, information, information[5:10245])
        self.assertEqual(zr400.code(1, 7, information, memoryview(information)[5:10245]), apart)


class Small:
    """A number of a type whose products are not exact, as numpy's small ones are."""

    def __init__(self, value):
        self.value = value

    def __index__(self):
        return self.value

    def wrapped(self, other):
        return Small(self.value * int(other) % 256)

    __mul__ = __rmul__ = __add__ = __radd__ = __sub__ = __floordiv__ = wrapped


class Numbers(unittest.TestCase):
    def test_lengths_of_small_numbers(self):
        kinds = [Small] if numpy is None else [Small, numpy.uint8, numpy.int8, numpy.int16]
        for kind in kinds:
            lengths = (zr400.information_length, zr400.parity_length, zr400.capture_length, zr400.words, zr400.window_length)
            for length in lengths:
                self.assertEqual(repr(length(kind(8))), repr(length(8)), (kind, length))
            self.assertEqual(repr(zr400.groups_length(kind(100), kind(101), kind(120))), repr(zr400.groups_length(100, 101, 120)))

    def test_calls_with_small_numbers(self):
        kinds = [Small] if numpy is None else [Small, numpy.uint8, numpy.int8, numpy.int16]
        information, parity, capture = coded(1)
        for kind in kinds:
            self.assertEqual(zr400.code(kind(1), kind(7), information, parity), capture)
            self.assertEqual(zr400.read(kind(1), kind(7), capture), (information, parity, 0))
            self.assertEqual(zr400.information(kind(1), kind(4), information), information[4 * 30583 :])
            edited = [zr400.edit(*numbers, bytes(33), bytes(2048), bytearray(capture)) for numbers in ((kind(1), kind(6)), (1, 6))]
            self.assertEqual(edited[0], edited[1])
            window = zr400.map_window(kind(100), kind(101), kind(120), bytes(zr400.groups_length(100, 101, 120)))
            self.assertEqual(zr400.unmap_window(kind(100), kind(101), kind(120), window), bytes(257))
            self.assertEqual(zr400.run(kind(0), kind(1)), ("stuff", 10220))

    def test_what_is_no_whole_number(self):
        for name, call in (
            ("n", zr400.information_length), ("n", zr400.parity_length), ("n", zr400.capture_length), ("n", zr400.words),
            ("n", zr400.window_length), ("c", lambda x: zr400.groups_length(x, 1, 2)), ("f", lambda x: zr400.groups_length(1, x, 2)),
            ("n", lambda x: zr400.groups_length(1, 1, x)), ("c", lambda x: zr400.run(x, 1)), ("j", lambda x: zr400.run(1, x)),
            ("c", lambda x: zr400.runs(x, 1)), ("j", lambda x: zr400.runs(1, x)),
            ("f", lambda x: zr400.map_window(1, x, 2, b"")), ("n", lambda x: zr400.unmap_window(1, 1, x, b"")),
            ("n", lambda x: zr400.information(x, 0, b"")), ("t", lambda x: zr400.information(1, x, b"")),
            ("n", lambda x: zr400.code(x, 0, b"", b"")), ("m0", lambda x: zr400.code(1, x, b"", b"")),
            ("n", lambda x: zr400.read(x, 0, b"")), ("m0", lambda x: zr400.read(1, x, b"")),
            ("n", lambda x: zr400.edit(x, 0, b"", b"", bytearray())), ("block", lambda x: zr400.edit(1, x, b"", b"", bytearray())),
        ):
            for number in (1.5, 2.0, "2", None):
                with self.assertRaises(TypeError) as caught:
                    call(number)
                self.assertEqual(str(caught.exception), f"{name} must be a whole number, and is {number!r}")


if __name__ == "__main__":
    unittest.main()
