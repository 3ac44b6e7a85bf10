"""The calls against the second program's texts, which the proved programs are held to as well (second/outputs makes them).

    python3 -m unittest discover -s hosts/python/tests
"""

import re
import unittest

from common import coded, digest, digest_of_list, flip, lines_of, refusal, seeded, text_of, zr400


class Vectors(unittest.TestCase):
    def test_coded(self):
        lines = lines_of("test_captures")
        for n in (1, 2):
            capture = coded(n)[2]
            line = f"N {n} m0 {7 * n}: number 0 place 0 count {zr400.words(n)} digest {digest(capture)}"
            self.assertIn(line, lines)
        information, parity, _ = coded(1)
        for m0 in (0, 63, 64, 126, 127):
            capture = zr400.code(1, m0, information, parity)
            self.assertIn(f"N 1 m0 {m0}: number 0 place 0 count {zr400.words(1)} digest {digest(capture)}", lines)

    def test_coding_refused(self):
        lines = lines_of("test_captures")
        information, parity, _ = coded(1)
        full = zr400.capture_length(1)
        for label, n, m0, i, p, length in (
            ("N 0", 0, 7, information, parity, full),
            ("N 9", 9, 7, information, parity, full),
            ("m0 128", 1, 128, information, parity, full),
            ("information one byte short", 1, 7, information[:-1], parity, full),
            ("parity one byte long", 1, 7, information, parity + b"\0", full),
            ("capture one byte short", 1, 7, information, parity, full - 1),
        ):
            capture = seeded(999, length)
            before = digest(capture)
            answer = refusal(lambda: zr400.code(n, m0, i, p, capture))
            self.assertIn(f"{label}: {answer} before {before} after {digest(capture)}", lines)

    def reading(self, label, n, m0, capture, lines):
        information = seeded(998, zr400.information_length(1))
        parity = seeded(997, zr400.parity_length(1))
        try:
            repaired = zr400.read(n, m0, capture, information, parity).repaired
            answer = f"number 0 place 0 count {repaired}"
        except zr400.Refused as refused:
            answer = f"number {refused.number} place {refused.place} count 0"
        self.assertIn(f"{label}: {answer} information {digest(information)} parity {digest(parity)}", lines)

    def test_readings(self):
        lines = lines_of("test_captures")
        capture = coded(1)[2]
        last = zr400.words(1) - 1
        self.reading("N 1 undamaged", 1, 7, capture, lines)
        received = bytearray(capture)
        for w in range(last + 1):
            flip(received, w, (w * 37 + 11) % 128)
        self.reading("N 1 one flip in every word", 1, 7, received, lines)
        for w in (0, last):
            received = bytearray(capture)
            flip(received, w, 0)
            flip(received, w, 1)
            self.reading(f"N 1 two flips in word {w}", 1, 7, received, lines)
        self.reading("N 1 m0 one more", 1, 8, capture, lines)
        self.reading("N 1 m0 one less", 1, 6, capture, lines)
        self.reading("N 1 m0 64 more", 1, 71, capture, lines)
        self.reading("N 0", 0, 7, capture, lines)
        self.reading("N 9", 9, 7, capture, lines)
        self.reading("m0 128", 1, 128, capture, lines)
        self.reading("capture one byte short", 1, 7, capture[:-1], lines)

    def test_edits(self):
        lines = lines_of("test_edits")
        for n, block in ((1, 0), (1, 6), (1, 951), (1, 952), (1, 4759), (2, 4759), (2, 4760)):
            capture = bytearray(coded(n)[2])
            bits = seeded(300 + block, 33)
            bits[32] &= 0x80
            listed = zr400.edit(n, block, bits, seeded(301 + block, 2048), capture)
            label = f"N {n} block {block}"
            left = f"capture {digest(capture)} list {digest_of_list(listed)}"
            self.assertIn(f"{label}: number 0 place 0 count {len(listed)} {left}", lines)

    def test_edits_refused(self):
        lines = lines_of("test_edits")
        bits = seeded(306, 33)
        bits[32] &= 0x80
        spare = bytearray(bits)
        spare[32] |= 1
        parity = seeded(307, 2048)
        for label, n, block, b, p, flips in (
            ("N 1 block 4760", 1, 4760, bits, parity, ()),
            ("N 0 block 0", 0, 0, bits, parity, ()),
            ("N 9 block 0", 9, 0, bits, parity, ()),
            ("N 1 block 18446744073709551615", 1, 2**64 - 1, bits, parity, ()),
            ("client block of 32 bytes", 1, 6, bits[:32], parity, ()),
            ("parity of 2047 bytes", 1, 6, bits, parity[:2047], ()),
            ("capture of N 1 as N 2", 2, 6, bits, parity, ()),
            ("lowest spare bit set", 1, 6, spare, parity, ()),
            ("word 15 bit 0 wrong", 1, 6, bits, parity, ((15, 0),)),
            ("word 15 bit 127 wrong", 1, 6, bits, parity, ((15, 127),)),
            ("word 2672 bit 77 wrong", 1, 6, bits, parity, ((2672, 77),)),
            ("words 15 and 2672 wrong", 1, 6, bits, parity, ((2672, 5), (15, 6))),
        ):
            capture = bytearray(coded(1)[2])
            for w, bit in flips:
                flip(capture, w, bit)
            answer = refusal(lambda: zr400.edit(n, block, b, p, capture))
            self.assertIn(f"{label}: {answer} capture {digest(capture)} list {digest_of_list([])}", lines)

    def test_windows(self):
        lines = text_of("crates", "test_gmp", "stdout")
        lines = lines[[line.startswith("case 1: ") for line in lines].index(True) :]
        for at in range(0, len(lines), 3):
            case, c, f, n, groups_length, window_length, low = map(int, re.findall(r"\d+", lines[at]))
            if window_length > 100000:
                continue  # right, but slow to generate here; hosts/check has them
            d = (f + n - 1) * c // 10220 - (f - 1) * c // 10220
            groups = seeded(500 + case, groups_length)
            if groups_length:
                groups[-1] = groups[-1] & 0xF0 | low
            window = seeded(600 + case, window_length)
            answer = refusal(lambda: zr400.map_window(c, f, n, groups, window))
            answer = f"number 0 place 0 count {d}" if answer == "granted" else answer
            self.assertEqual(f"map: {answer} window {digest(window)}", lines[at + 1])
            window = seeded(700 + case, window_length)
            groups = seeded(800 + case, groups_length)
            answer = refusal(lambda: zr400.unmap_window(c, f, n, window, groups))
            answer = f"number 0 place 0 count {d}" if answer == "granted" else answer
            self.assertEqual(f"unmap: {answer} groups {digest(groups)}", lines[at + 2])

    def test_places(self):
        for line in text_of("hosts", "vectors", "places.txt"):
            asked = re.fullmatch(r"C (\d+) place (\d+) (run|runs): (.*)", line)
            if not asked:
                self.assertRegex(line, r"^C \d+ all places: ")  # a digest of 10,220 answers, which hosts/check makes
                continue
            c, j = int(asked[1]), int(asked[2])
            if asked[3] == "run":
                answer = refusal(lambda: zr400.run(c, j))
                kind, last = ("stuff", 0) if answer != "granted" else zr400.run(c, j)
                answer = "number 0 place 0 count 0" if answer == "granted" else answer
                self.assertEqual(f"{answer} {kind} last {last}", asked[4])
            else:
                answer = refusal(lambda: zr400.runs(c, j))
                answer = f"number 0 place 0 count {zr400.runs(c, j)}" if answer == "granted" else answer
                self.assertEqual(answer, asked[4])

    def test_parts(self):
        lines = lines_of("test_captures")
        info = coded(1)[0]
        for label, n, t, lent in (
            ("N 1 t 0", 1, 0, info),
            ("N 1 t 3", 1, 3, info),
            ("N 1 t 4", 1, 4, info),
            ("N 1 t 5", 1, 5, info),
            ("N 0 t 0", 0, 0, info),
            ("N 9 t 0", 9, 0, info),
            ("information of N 1 as N 2", 2, 0, info),
            ("N 1 t 5 and one byte short", 1, 5, info[:-1]),
            ("one byte short", 1, 4, info[:-1]),
            ("one byte long", 1, 4, info + b"\0"),
        ):
            answer = refusal(lambda: zr400.information(n, t, lent))
            part = zr400.information(n, t, lent) if answer == "granted" else b""
            answer = "number 0 place 0 count 0" if answer == "granted" else answer
            self.assertIn(f"{label}: {answer} bytes {len(part)} digest {digest(part)}", lines)


if __name__ == "__main__":
    unittest.main()
