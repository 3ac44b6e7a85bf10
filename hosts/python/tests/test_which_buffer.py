"""Which buffer a refusal names: every call on buffers of which each has its stated length, or one less, or one more, in every combination,
again with a spare bit set where a buffer has some, and once with a number outside its set. The second program makes the same calls."""

import array
import ctypes
import functools
import itertools
import os
import unittest
from typing import Any, Callable, Dict, NamedTuple, Optional, Sequence, Tuple

from common import OUT, Generator, _library, coded, digest, seeded, text_of, zr400

TEXT = ("crates", "test_buffers", "stdout")
SENTENCE = "a buffer's length is not the stated one"
PART = 30583

_kept: Dict[int, bytes] = {}


def first_of(seed, length):
    """Seeded bytes. They are slow to make, so they are kept, and a shorter buffer has the first of them."""
    if len(_kept.get(seed, b"")) < length:
        _kept[seed] = bytes(seeded(seed, length + 2))
    return bytearray(_kept[seed][:length])


def with_spare(data, at, kept, spare):
    """The byte with the spare bits, where it is lent, has none of them set, or the lowest."""
    if at < len(data):
        data[at] = data[at] & kept | spare
    return data


def seeded_list(length):
    generator = Generator(996)
    return array.array("Q", [generator.number() for _ in range(length)])


def first_of_capture(length):
    return bytearray((coded(1)[2] + b"\0")[:length])


@functools.lru_cache(maxsize=None)
def digest_once(data):
    return digest(data)


def digest_of(output):
    if isinstance(output, array.array):
        return digest_once(b"".join(number.to_bytes(8, "big") for number in output))
    return digest_once(bytes(output))


# ---- the calls: each makes its buffers, and gives its outputs and what makes the call and answers the count


def code(n, spare, lengths):
    both, capture = first_of(101, lengths[0] + lengths[1]), first_of(999, lengths[2])

    def call():
        zr400.code(n, 7, both[: lengths[0]], both[lengths[0] :], capture)
        return zr400.words(n)

    return {"capture": capture}, call


def read(n, spare, lengths):
    capture, information, parity = first_of_capture(lengths[0]), first_of(998, lengths[1]), first_of(997, lengths[2])
    return {"information": information, "parity": parity}, lambda: zr400.read(n, 7, capture, information, parity).repaired


def edit(n, spare, lengths):
    bits, parity = with_spare(first_of(306, lengths[0]), 32, 0x80, spare), first_of(307, lengths[1])
    capture, listed = first_of_capture(lengths[2]), seeded_list(lengths[3])

    def call():
        if len(listed) == 145:
            words = zr400.edit(n, 6, bits, parity, capture)
            listed[: len(words)] = array.array("Q", words)
            return len(words)
        # The function makes a list of the right length itself, so a wrong one is lent below it.
        taken = _library.Lent("bits", bits, 33, title="client block"), _library.Lent("parity", parity, 2048)
        given = _library.Lent("capture", capture, zr400.capture_length(n)), _library.Lent("list", listed, 145, is_list=True)
        return zr400._granted(_library.EDIT, (n, 6), taken, given)

    return {"capture": capture, "list": listed}, call


def part(n, spare, lengths):
    info = first_of(101, lengths[0])

    def call():
        assert len(zr400.information(n, 4, info)) == PART
        return 0

    return {}, call


def map_window(c, spare, lengths):
    groups, window = with_spare(first_of(995, lengths[0]), 128, 0xF0, spare), first_of(999, lengths[1])

    def call():
        zr400.map_window(c, 1, 2, groups, window)
        return 1

    return {"window": window}, call


def unmap_window(c, spare, lengths):
    window, groups = first_of(999, lengths[0]), first_of(995, lengths[1])

    def call():
        zr400.unmap_window(c, 1, 2, window, groups)
        return 1

    return {"groups": groups}, call


def archive_write(count, spare, lengths):
    head = first_of(999, lengths[2])
    return {"head": head}, lambda: len(zr400.archive_write(count, (1, 3, 2)[: lengths[0]], (5, 7, 9)[: lengths[1]], head))


def archive_read(size, spare, lengths):
    first = (zr400.archive_write(2, (1, 3), (5, 7)) + bytes(13))[: lengths[0]]
    lists = {name: seeded_list(length) for name, length in zip(("kinds", "offsets", "lengths"), lengths[1:])}
    return lists, lambda: zr400.archive_read(size, first, *lists.values()).count


class Case(NamedTuple):
    """A call: its first number, and one outside its set; the parameters of its buffers, and what the documents call them."""

    name: str
    make: Callable[..., Tuple[Dict[str, Any], Callable[[], int]]]
    which: int
    number: int
    outside: Optional[Tuple[str, int]]
    stated: Sequence[int]
    parameters: Sequence[str]
    titles: Sequence[str]
    lists: Sequence[str] = ()
    has_spare_bits: bool = False


CODED = ("information", "parity", "capture")
TABLE = ("kinds", "offsets", "lengths")
CASES = (
    Case("code", code, _library.CODE, 1, ("N", 0), (152915, 10240, 183296), CODED, CODED),
    Case("read", read, _library.READ, 1, ("N", 0), (183296, 152915, 10240), *[("capture", "information", "parity")] * 2),
    Case(
        "edit", edit, _library.EDIT, 1, ("N", 0), (33, 2048, 183296, 145), ("bits", "parity", "capture", "list"),
        ("client block", "parity", "capture", "list"), ("list",), True,
    ),
    Case("part", part, _library.INFORMATION, 1, ("N", 0), (152915,), ("info",), ("information",)),
    Case("map", map_window, _library.MAP, 10216, ("C", 10221), (129, 257), *[("groups", "window")] * 2, (), True),
    Case("unmap", unmap_window, _library.UNMAP, 10216, ("C", 10221), (257, 129), *[("window", "groups")] * 2),
    Case("archive write", archive_write, _library.ARCHIVE_WRITE, 2, ("count", 0), (2, 2, 36), *[("kinds", "lengths", "head")] * 2, ("kinds", "lengths")),
    Case("archive read", archive_read, _library.ARCHIVE_READ, 48, None, (48, 32, 32, 32), ("first", *TABLE), ("first bytes", *TABLE), TABLE),
)


class Outcome:
    """A call that was made."""

    def __init__(self, case, name, number, spare, lengths):
        self.case, self.name, self.number, self.spare, self.lengths = case, name, number, spare, lengths
        self.refused = None
        outputs, call = case.make(number, spare, lengths)
        before = [bytes(output) for output in outputs.values()]
        try:
            answer = f"number 0 place 0 count {call()}"
        except zr400.Refused as refused:
            self.refused = refused
            answer = f"number {refused.number} place {refused.place} count 0"
        self.changed = before != [bytes(output) for output in outputs.values()]
        left = "".join(f" {output} {digest_of(data)}" for output, data in outputs.items())
        if case.make is part:
            left = f" bytes {0 if self.refused else PART}"
        self.line = f"{name} {' '.join(map(str, lengths))}: {answer}{left}"

    def wrong(self):
        """The places of the buffers whose lengths are wrong."""
        return [place for place, (length, stated) in enumerate(zip(self.lengths, self.case.stated), 1) if length != stated]

    def expected(self):
        """Number and place by the rule: the smallest number, and of buffers the first."""
        if self.number != self.case.number:
            return 1, 0
        if self.wrong():
            return 2, self.wrong()[0]
        return (3, 1) if self.spare else None

    def told(self):
        """What the message says behind the sentence."""
        for place in self.wrong():
            parameter = self.case.parameters[place - 1]
            items = "numbers" if parameter in self.case.lists else "bytes"
            yield f"{parameter} has {self.lengths[place - 1]} {items}, and {self.case.stated[place - 1]} are wanted"


def patterns(case, name, spare):
    """A pattern has a digit for each buffer, the lowest for the first: the stated length, one less, one more."""
    for digits in itertools.product((0, -1, 1), repeat=len(case.stated)):
        lengths = [stated + more for stated, more in zip(case.stated, reversed(digits))]
        yield Outcome(case, name, case.number, spare, lengths)


def outcomes_of(case):
    yield from patterns(case, case.name, 0)
    if case.has_spare_bits:
        yield from patterns(case, f"{case.name} with a spare bit set", 1)
    if case.outside:
        letter, outside = case.outside
        yield Outcome(case, f"{case.name} of {letter} {outside}", outside, 0, [stated - 1 for stated in case.stated])


class WhichBuffer(unittest.TestCase):
    @classmethod
    def setUpClass(cls):
        cls.outcomes = [outcome for case in CASES for outcome in outcomes_of(case)]

    def refusals(self, number):
        found = [outcome for outcome in self.outcomes if outcome.refused and outcome.refused.number == number]
        self.assertGreater(len(found), 1)
        return found

    def test_the_first_in_the_order_of_the_parameters(self):
        for outcome in self.outcomes:
            refused = outcome.refused
            self.assertEqual(refused and (refused.number, refused.place), outcome.expected(), outcome.line)

    def test_nothing_is_changed(self):
        self.assertEqual([o.line for o in self.outcomes if o.changed and o.refused], [])
        self.assertEqual(sum(o.refused is None for o in self.outcomes), len(CASES))

    def test_a_wrong_length_is_told(self):
        for outcome in self.refusals(2):
            case, refused, at = outcome.case, outcome.refused, outcome.wrong()[0] - 1
            self.assertEqual((refused.buffer, refused.length, refused.wanted), (case.parameters[at], outcome.lengths[at], case.stated[at]))
            told = "; ".join(outcome.told())
            self.assertEqual(str(refused), f"refused 2 at buffer {at + 1}, the {case.titles[at]}: {SENTENCE}: {told}")

    def test_a_spare_bit_is_told(self):
        for outcome in self.refusals(3):
            case, refused = outcome.case, outcome.refused
            self.assertEqual((refused.buffer, refused.length, refused.wanted), (case.parameters[0], None, None))
            self.assertEqual(str(refused), f"refused 3 at buffer 1, the {case.titles[0]}: a spare bit is not zero")

    def test_a_number_comes_first_and_names_none(self):
        for outcome in self.refusals(1):
            self.assertEqual((outcome.refused.place, outcome.refused.buffer), (0, None))
            self.assertEqual(str(outcome.refused), "refused 1: a number is outside its stated set")

    def test_the_second_programs_text(self):
        self.assertEqual([outcome.line for outcome in self.outcomes], text_of(*TEXT))


class Names(unittest.TestCase):
    @unittest.skipUnless(_library.is_native() and os.path.exists(os.path.join(OUT, "libzr400.so")), "there is no library that can be loaded")
    def test_the_library_has_the_same(self):
        name_of = ctypes.CDLL(os.path.join(OUT, "libzr400.so")).zr400_buffer
        name_of.argtypes, name_of.restype = [ctypes.c_uint, ctypes.c_uint64], ctypes.c_char_p
        for case in CASES:
            named = [name_of(case.which, place).decode() for place in range(1, len(case.titles) + 1)]
            self.assertEqual(named, list(case.titles), case.name)


if __name__ == "__main__":
    unittest.main()
