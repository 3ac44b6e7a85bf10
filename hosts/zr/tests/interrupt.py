"""Sends signals to zr while it starts, while it reads and while it writes, and looks at how it ends:

    interrupt.py ZR     in a folder with info, parity, capture and a pipe of that name

It must end by the signal, as a command does, or be done; say nothing of Python's; and leave no file but a whole one.
"""

import os
import signal
import subprocess
import sys
import time

WHOLE = 183296
LARGE = 1 << 31


SIGNALS = (signal.SIGINT, signal.SIGTERM, signal.SIGHUP, signal.SIGQUIT)


def heard():
    """What was started by a script's `&` ignores Ctrl-C otherwise, and by nohup that the terminal was closed."""
    for number in SIGNALS:
        signal.signal(number, signal.SIG_DFL)


def started(zr, *words):
    return subprocess.Popen([zr, *words], stderr=subprocess.PIPE, preexec_fn=heard)


def expect(fact, told):
    if not fact:
        sys.exit(f"what was seen: {told}")


def ended(process, *numbers, whole=WHOLE):
    """It ended by one of the signals, with nothing to say; or was done."""
    said = process.communicate(timeout=60)[1]
    expect(process.returncode in [-number for number in numbers] and not said or process.returncode == 0 and said.startswith(b"done"), (numbers, process.returncode, said))
    expect([name for name in os.listdir() if name.startswith(".zr-")] == [], os.listdir())
    if os.path.exists("new"):
        expect(process.returncode == 0 and os.path.getsize("new") == whole, (process.returncode, os.path.getsize("new")))
        os.remove("new")


def main(zr):
    for number in SIGNALS:
        process = started(zr, "code", "1", "0", "pipe", "parity", "new")
        with open("pipe", "wb"):  # it has begun to read
            process.send_signal(number)
            ended(process, number)
    for delay in range(0, 120, 4):
        process = started(zr, "code", "1", "0", "info", "parity", "new")
        time.sleep(delay / 1000)
        process.send_signal(signal.SIGINT)
        ended(process, signal.SIGINT)
    process = started(zr, "read", "1", "63", "capture", "pipe", "new")
    with open("pipe", "rb"):  # it has begun to write
        for number in (signal.SIGHUP, signal.SIGTERM, signal.SIGINT):
            process.send_signal(number)
        ended(process, signal.SIGHUP, signal.SIGTERM, signal.SIGINT)


def copying():
    try:
        return any(name.startswith(".zr-") and os.path.getsize(name) > 1 << 20 for name in os.listdir())
    except FileNotFoundError:
        return False  # it has just got its name


def pack(zr):
    """While it keeps what a pipe gives, while it copies a large body, and while it writes into a pipe."""
    process = started(zr, "pack", "new", "information", "pipe")
    with open("pipe", "wb") as pipe:
        pipe.write(bytes(1 << 20))
        process.send_signal(signal.SIGINT)
        ended(process, signal.SIGINT)
    with open("large", "wb") as large:
        large.truncate(LARGE)
    process = started(zr, "pack", "new", "information", "large")
    while process.poll() is None and not copying():
        time.sleep(0.001)
    process.send_signal(signal.SIGTERM)
    ended(process, signal.SIGTERM, whole=LARGE + 27)
    os.remove("large")
    process = started(zr, "pack", "pipe", "information", "info")
    with open("pipe", "rb"):
        process.send_signal(signal.SIGINT)
        ended(process, signal.SIGINT)


if __name__ == "__main__":
    main(sys.argv[1])
    pack(sys.argv[1])
