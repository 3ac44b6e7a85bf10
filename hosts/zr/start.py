"""Starts the command: whatever goes wrong before it is there must not end with 1, Python's own status for an error and here that of a refusal."""

import os

try:
    import sys

    import command

    command.start(sys.argv[1:])
except BaseException as error:
    os.write(2, b"failed: the parts of zr in hosts/zr cannot be loaded: %s\n" % repr(error).encode())
    os._exit(2)
