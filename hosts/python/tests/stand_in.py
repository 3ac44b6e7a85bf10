"""The program of common.StandIn, which says what the steps are: stand_in.py FOLDER PLAN.."""

import fcntl
import os
import signal
import struct
import sys
import termios
import time

# For each call, from which buffer on it may write, as in hosts/c/worker.c.
WRITTEN = (0, 0, 1, 1, 1, 2, 1, 2, 2, 1)


def put(data):
    sys.stdout.buffer.write(data)
    sys.stdout.buffer.flush()


def wait_until_taken():
    """The caller has taken all that was put: the pipe is empty."""
    left = b"...."
    while any(left):
        left = fcntl.ioctl(1, termios.FIONREAD, b"....")
        time.sleep(0.001)


def answer_call(step, folder):
    head = struct.unpack("<8Q", sys.stdin.buffer.read(64))
    if step == "die":
        os._exit(3)
    lengths = head[4:]
    sys.stdin.buffer.read(sum(lengths))
    answer = struct.pack("<3Q", 0, 0, 5) + b"\x5a" * sum(lengths[WRITTEN[head[0]] :])
    if step == "hold":
        with open(os.path.join(folder, "entered"), "wb") as entered:
            entered.write(b".")
        with open(os.path.join(folder, "released"), "rb") as released:
            released.read(1)
    if step in ("cut", "interrupt"):
        put(answer[: len(answer) - 1])
        if step == "interrupt":
            wait_until_taken()
            os.kill(os.getppid(), signal.SIGINT)
            sys.stdin.buffer.read()
        os._exit(4)
    put(answer)


def main():
    folder, plans = sys.argv[1], sys.argv[2:]
    start = len(os.listdir(folder)) - 2  # beside the two pipes there is a file for each start
    open(os.path.join(folder, f"start-{start}"), "wb").close()
    steps = plans[min(start, len(plans) - 1)].split(",")
    while sys.stdin.buffer.peek(1):
        answer_call(steps.pop(0) if steps else "answer", folder)


main()
