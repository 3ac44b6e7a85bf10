"""Threads and forks."""

import os
import threading
import unittest
from unittest import mock

from common import MINUTE, StandIn, _library, coded, forked, is_worker, text_of, use, zr400


class Together(unittest.TestCase):
    def test_threads(self):
        information, parity, capture = coded(1)
        wrong = []

        def work():
            for _ in range(3):
                if zr400.code(1, 7, information, parity) != capture or zr400.read(1, 7, capture).information != information:
                    wrong.append(1)

        threads = [threading.Thread(target=work) for _ in range(4)]
        for thread in threads:
            thread.start()
        for thread in threads:
            thread.join()
        self.assertEqual(wrong, [])

    @unittest.skipIf("ZR400_WORKER" in os.environ or not _library.is_native(), "only a call in this process needs its thread's stack")
    def test_a_thread_with_a_small_stack(self):
        information, parity, capture = coded(1)
        outcomes = []

        def work():
            try:
                outcomes.append(zr400.code(1, 7, information, parity) == capture)
            except RuntimeError as error:
                outcomes.append(str(error))

        for size in (1 << 18, _library.STACK_BYTES):
            before = threading.stack_size(size)
            try:
                thread = threading.Thread(target=work)
                thread.start()
                thread.join()
            finally:
                threading.stack_size(before)
        self.assertEqual(outcomes, [f"a call needs a stack of {_library.STACK_BYTES} bytes, and this thread's has {1 << 18}", True])

    def test_the_stack_is_that_of_the_header(self):
        self.assertIn(f"#define ZR400_STACK_BYTES {_library.STACK_BYTES}u", text_of("hosts", "c", "zr400.h"))

    def test_fork(self):
        self.assertEqual(zr400.runs(10216, 1), 8)
        self.assertEqual(forked(lambda: zr400.runs(10216, 2) == 7), 0)
        self.assertEqual(zr400.runs(10216, 2), 7)

    def test_fork_during_the_first_call(self):
        use(self, None)
        load, entered, released, answers = _library._load, threading.Event(), threading.Event(), []

        def held():
            entered.set()
            released.wait(MINUTE)
            return load()

        def work():
            _library._load = load
            return zr400.runs(10216, 2) == 7

        with mock.patch.object(_library, "_load", held):
            thread = threading.Thread(target=lambda: answers.append(zr400.runs(10216, 1)), daemon=True)
            thread.start()
            self.assertTrue(entered.wait(MINUTE))
            status = forked(work)
            released.set()
            thread.join(MINUTE)
        if is_worker():
            _library.library().end()
        self.assertEqual((status, answers), (0, [8]))

    def test_fork_in_the_middle_of_a_call(self):
        worker = StandIn(self, "hold")
        groups = bytearray(40)
        thread = threading.Thread(target=zr400.unmap_window, args=(0, 1, 2, bytes(257), groups), daemon=True)
        thread.start()
        self.assertTrue(worker.wait_until_entered())  # now the thread waits for the answer

        def work():
            worker._command[-1] = "answer"
            return zr400.runs(10216, 2) == 5

        status = forked(work)
        worker.release()
        thread.join(MINUTE)
        self.assertEqual((status, groups), (0, b"\x5a" * 40))
        self.assertEqual(worker.starts(), 2)


if __name__ == "__main__":
    unittest.main()
