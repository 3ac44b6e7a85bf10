"""Runs hosts/prove at a terminal of its own: stops it by Ctrl-C, looks that no prover is left, and starts it again.

    at_terminal.py PROVE LOG WORD..     in a small repository that is not proved yet
"""

import fcntl
import os
import pty
import re
import signal
import sys


def at_terminal(words, key_after=None):
    """What the command writes to its terminal, and its exit status; Ctrl-C is typed once the text `key_after` was seen."""
    process, terminal = pty.fork()
    if process == 0:
        signal.signal(signal.SIGINT, signal.SIG_DFL)  # where it is ignored, as by what a script starts with &, nothing can be stopped by it
        os.execve(words[0], words, {**os.environ, "TERM": "xterm", "TMPDIR": os.path.abspath("temporary")})
    seen = b""
    while True:
        try:
            part = os.read(terminal, 4096)
        except OSError:  # the terminal was closed by its last process
            break
        if not part:
            break
        seen += part
        if key_after and key_after in seen:
            os.write(terminal, b"\x03")
            key_after = None
    os.close(terminal)
    return seen.decode(), os.waitpid(process, 0)[1]


def expect(fact, seen):
    if not fact:
        sys.exit(f"what was seen: {seen!r}")


def main(words):
    os.mkdir("temporary")
    seen, status = at_terminal(words, b"proving: 0 of 2 crates")
    expect(os.WIFSIGNALED(status) and os.WTERMSIG(status) == signal.SIGINT, (seen, status))
    expect(re.search(r"stopped: [01] of 2 crates are proved, and the next start goes on from there", seen), seen)
    with open("target/proving.lock", "ab") as lock:  # every prover holds it
        fcntl.flock(lock, fcntl.LOCK_EX | fcntl.LOCK_NB)
    expect(os.listdir("temporary") == [], os.listdir("temporary"))
    seen, status = at_terminal(words)
    expect(status == 0, (seen, status))
    expect(re.search(r"\rproving: \d of 2 crates, \d+ s\x1b\[K\r", seen) and re.search(r"\r\x1b\[Kproved: 2 of 2 crates, \d+ s\r\n$", seen), seen)
    expect(seen.count("\n") == 1, seen)


if __name__ == "__main__":
    main(sys.argv[1:])
