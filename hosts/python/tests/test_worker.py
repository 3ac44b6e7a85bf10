"""The worker process: what becomes of a call, and of the next one, when the worker dies or the caller is interrupted."""

import mmap
import os
import re
import signal
import struct
import sys
import unittest

from common import MINUTE, PYTHON, WORKER, StandIn, _library, coded, folder_for, python, text_of, use, use_worker, zr400

BEFORE = b"\xa5" * 40

CLOSED = """
import os, sys
sys.path.insert(0, sys.argv[1])
for descriptor in range(3):
    os.close(descriptor)
import zr400
answers = [zr400.runs(10216, 1), zr400.runs(10216, 2)]
with_none = []
for descriptor in range(3):
    try:
        os.fstat(descriptor)
    except OSError:
        with_none.append(descriptor)
    os.open(os.devnull, os.O_RDONLY)
with open(sys.argv[2], "w") as told:
    told.write(f"{answers} {with_none}")
"""

ELSEWHERE = """
import os, signal, sys
sys.path.insert(0, sys.argv[1])
import zr400
from zr400 import _library
zr400.runs(10216, 1)
os.chdir("/")
_library.library()._running.process.kill()
print(zr400.runs(10216, 2))
"""

STORM = """
import signal, sys
sys.path.insert(0, sys.argv[1])
import zr400
raised = caught = 0
inside = False

def interrupt(*_):
    global raised, inside
    if inside:
        inside, raised = False, raised + 1
        raise KeyboardInterrupt

full = b"Z" * 257
signal.signal(signal.SIGALRM, interrupt)
signal.setitimer(signal.ITIMER_REAL, 0.001, 0.0037)
while raised < 300:
    groups = bytearray(257)
    try:
        inside = True
        zr400.unmap_window(10220, 1, 2, full, groups)
        inside = False
        assert groups == full
    except KeyboardInterrupt:
        caught += 1
    assert groups in (bytes(257), full)
    groups.append(0)  # no loan is left
signal.setitimer(signal.ITIMER_REAL, 0)
print(raised - caught, zr400.runs(10216, 1))
"""

CTRL_C = """
import os, signal, sys, time
sys.path.insert(0, sys.argv[1])
import zr400
from zr400 import _library
signal.signal(signal.SIGINT, signal.default_int_handler)
assert zr400.runs(10216, 1) == 8
first = _library.library()._running.process.pid
try:
    os.killpg(os.getpgrp(), signal.SIGINT)  # what a terminal does
    time.sleep(30)
except KeyboardInterrupt:
    pass
assert zr400.runs(10216, 2) == 7
print("the same worker" if _library.library()._running.process.pid == first else "another worker")
"""

TO_THE_END = """
import sys
sys.path.insert(0, sys.argv[1])
import zr400
from zr400 import _library
zr400.runs(10216, 1)
print(_library.library()._running.process.pid)
"""


def environment():
    return {**os.environ, "ZR400_WORKER": WORKER}


class Lives(unittest.TestCase):
    def test_a_dead_worker_is_replaced(self):
        worker = use_worker(self)
        self.assertEqual(zr400.runs(10216, 1), 8)
        first = worker._running.process
        first.kill()
        first.wait()
        self.assertEqual(zr400.runs(10216, 2), 7)
        self.assertNotEqual(worker._running.process.pid, first.pid)
        os.kill(worker._running.process.pid, signal.SIGKILL)  # and one that nobody has waited for
        self.assertEqual(zr400.runs(10216, 1), 8)

    def test_a_call_is_made_again_when_an_old_worker_dies(self):
        for step in ("die", "cut"):
            worker = StandIn(self, f"answer,{step}", "answer")
            self.assertEqual(zr400.runs(0, 1), 5)
            groups = bytearray(BEFORE)
            zr400.unmap_window(0, 1, 2, bytes(257), groups)
            self.assertEqual((groups, worker.starts()), (b"\x5a" * 40, 2))

    def test_a_new_worker_that_dies_is_told(self):
        for plans, calls in ((("answer,cut", "cut", "answer"), 1), (("answer,die", "die", "answer"), 1), (("cut", "answer"), 0)):
            worker = StandIn(self, *plans)
            for _ in range(calls):
                zr400.runs(0, 1)
            groups = bytearray(BEFORE)
            with self.assertRaisesRegex(RuntimeError, "the zr400 worker ended before it had answered, with status [34]"):
                zr400.unmap_window(0, 1, 2, bytes(257), groups)
            self.assertEqual((groups, worker.starts()), (BEFORE, calls + 1))
            self.assertEqual(zr400.runs(0, 1), 5)

    def test_the_worker_ends_with_the_program(self):
        if not os.path.exists(WORKER):
            self.skipTest("there is no zr400-worker")
        ended = python("-c", TO_THE_END, PYTHON, environment=environment())
        self.assertEqual(ended.returncode, 0, ended.stdout)
        with self.assertRaises(ProcessLookupError):
            os.kill(int(ended.stdout), 0)

    def test_a_program_without_standard_input_and_output(self):
        told = os.path.join(folder_for(self), "told")
        for variables in ({}, {"ZR400_WORKER": WORKER}):
            python("-c", CLOSED, PYTHON, told, environment={**os.environ, **variables})
            with open(told, encoding="ascii") as text:
                self.assertEqual(text.read(), "[8, 7] [0, 1, 2]", variables)
            os.remove(told)

    def test_a_program_that_goes_to_another_folder(self):
        relative = {**os.environ, "ZR400_WORKER": os.path.basename(WORKER)}
        ended = python("-c", ELSEWHERE, PYTHON, environment=relative, cwd=os.path.dirname(WORKER))
        self.assertEqual(ended.stdout, "7\n")

    def test_a_buffer_longer_than_every_stated_length(self):
        use_worker(self)
        with mmap.mmap(-1, (1 << 30) + 1) as long:
            with self.assertRaises(zr400.Refused) as caught:
                zr400.read(1, 7, long)
            refused = caught.exception
            self.assertEqual((refused.number, refused.place, refused.buffer, refused.length), (2, 1, "capture", (1 << 30) + 1))
            with self.assertRaises(zr400.Refused) as caught:
                zr400.edit(1, 6, bytes(33), long, bytearray(zr400.capture_length(1)))
            refused = caught.exception
            self.assertEqual((refused.number, refused.place, refused.buffer, refused.length), (2, 2, "parity", (1 << 30) + 1))
            with self.assertRaises(zr400.Refused) as caught:
                zr400.read(9, 7, long)
            self.assertEqual(caught.exception.number, 1)


class Interrupts(unittest.TestCase):
    def setUp(self):
        # A program that a shell started in the background ignores the signal otherwise.
        self.addCleanup(signal.signal, signal.SIGINT, signal.signal(signal.SIGINT, signal.default_int_handler))

    def test_ctrl_c_at_a_prompt_leaves_the_worker_alone(self):
        if not os.path.exists(WORKER):
            self.skipTest("there is no zr400-worker")
        ended = python("-c", CTRL_C, PYTHON, environment=environment(), start_new_session=True)
        self.assertEqual((ended.returncode, ended.stdout), (0, "the same worker\n"))

    def test_a_storm_of_interrupts(self):
        """None is lost and none hangs, wherever it comes."""
        ended = python("-c", STORM, PYTHON)
        self.assertEqual((ended.returncode, ended.stdout), (0, "0 8\n"))

    def test_an_interrupted_call_changes_no_output(self):
        worker = StandIn(self, "answer,interrupt", "answer")
        self.assertEqual(zr400.runs(0, 1), 5)
        first = worker._running.process
        information, parity = bytearray(BEFORE), bytearray(BEFORE)
        with self.assertRaises(KeyboardInterrupt):
            zr400.read(1, 7, b"", information, parity)
        self.assertEqual((information, parity), (BEFORE, BEFORE))
        self.assertEqual(first.wait(MINUTE), -signal.SIGKILL)
        self.assertEqual(zr400.read(1, 7, b"", information, parity).repaired, 5)
        self.assertEqual((information, parity, worker.starts()), (b"\x5a" * 40, b"\x5a" * 40, 2))
        information.append(0)  # no loan is left

    def test_no_interrupt_between_two_outputs(self):
        use(self, Prepared(struct.pack("<3Q", 0, 0, 0) + b"\x5a" * 80))
        seen, step = set(), 0
        while True:
            step += 1
            information, parity = bytearray(BEFORE), bytearray(BEFORE)
            if not interrupted_at(step, lambda: zr400.read(1, 7, b"", information, parity)):
                break
            self.assertEqual(information, parity, f"interrupted at step {step}")
            seen.add(bytes(information))
        self.assertEqual(seen, {BEFORE, b"\x5a" * 40})


class Prepared(_library.Worker):
    """A worker whose every answer is there from the start."""

    def __init__(self, answer):
        super().__init__([])
        self._prepared = answer

    def _ask(self, request, length):
        return bytearray(self._prepared)


def interrupted_at(step, call):
    """Whether a KeyboardInterrupt, raised at that step of the interpreter while outputs are handed over, came through."""
    left = step

    def enter(frame, event, _):
        # Not in the frames that take a lock: there a trace may raise where the interpreter itself never would.
        if frame.f_code.co_filename != _library.__file__ or frame.f_code.co_name not in ("_hand_over", "_in_one_step", "<listcomp>"):
            return None
        frame.f_trace, frame.f_trace_opcodes = take, True
        sys.settrace(enter)  # Python 3.12 sees the wish for single steps only here
        return take

    def take(frame, event, _):
        nonlocal left
        left -= event == "opcode"
        if left == 0:
            left = -1
            raise KeyboardInterrupt
        return take

    before = sys.gettrace()
    sys.settrace(enter)
    try:
        call()
    except KeyboardInterrupt:
        return True
    finally:
        sys.settrace(before)
    return False


class Order(unittest.TestCase):
    """The calls are numbered alike wherever they are listed."""

    def test_the_header(self):
        declared = re.findall(r"^zr_\w+ (\w+)\(([^)]*)\)", "\n".join(text_of("hosts", "c", "zr400.h")), re.M)
        shapes = [(name, len(re.findall(r"uint64_t \w", words)), words.count("*")) for name, words in declared]
        self.assertEqual(shapes, list(_library.CALLS))

    def test_the_numbers_of_the_header(self):
        listed = re.search(r"enum \{([^}]*)\} zr_call;", "\n".join(text_of("hosts", "c", "zr400.h")))[1]
        names = re.sub(r" = 0|\s", "", listed).lower().split(",")
        self.assertEqual([name.replace("_call_", "_") for name in names], [name for name, _, _ in _library.CALLS])

    def test_the_worker(self):
        text = "\n".join(text_of("hosts", "c", "worker.c"))
        shapes = re.findall(r"{(\d), (\d)}", re.search(r"shapes\[\] = {(.*)};", text)[1])
        self.assertEqual([int(buffers) for buffers, _ in shapes], [buffers for _, _, buffers in _library.CALLS])
        told = re.search(r"^WRITTEN = \((.*)\)$", "\n".join(text_of("hosts", "python", "tests", "stand_in.py")), re.M)[1]
        self.assertEqual([written for _, written in shapes], told.split(", "))


class Ways(unittest.TestCase):
    ASK = "import sys; sys.path.insert(0, sys.argv[1]); import zr400; from zr400 import _library; zr400.runs(0, 1); print(type(_library.library()).__name__)"

    def asked(self, **variables):
        kept = {name: value for name, value in os.environ.items() if not name.startswith("ZR400_")}
        return python("-c", self.ASK, PYTHON, environment={**kept, **variables}).stdout.strip()

    def test_a_worker_named(self):
        if not os.path.exists(WORKER):
            self.skipTest("there is no zr400-worker")
        self.assertEqual(self.asked(ZR400_WORKER=WORKER), "Worker")

    def test_a_folder_named(self):
        folder = folder_for(self)
        file = "libzr400.so" if _library.is_native() else "zr400-worker"
        self.assertIn(f"OSError: {file} is not in {folder}: make it by the script hosts/build", self.asked(ZR400_OUT=folder))

    def test_bytes_through_the_pipe(self):
        use_worker(self)
        information, parity, capture = coded(1)
        self.assertEqual(zr400.code(1, 7, information, parity), capture)
        self.assertEqual(zr400.read(1, 7, capture), (information, parity, 0))


if __name__ == "__main__":
    unittest.main()
