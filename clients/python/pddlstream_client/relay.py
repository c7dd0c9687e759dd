"""Joins standard input and output to a socket: what `solve` gives to the planner as its generator.

usage: python3 -m pddlstream_client.relay SOCKET

It ends with 0 where the planner has closed its pipe. Where the other side fails, which it tells by the byte FAILED, it
ends with 1. Where the other side is gone without a word, the process that solves was killed: then it ends the planner
too.
"""
import os
import selectors
import signal
import socket
import sys

FAILED = b"\0"


def hand_on(data: bytes) -> bool:
    """Writes an answer, or a part of one, to the planner; False where the other side says that it failed."""
    sys.stdout.buffer.write(data.removesuffix(FAILED))
    sys.stdout.buffer.flush()
    return not data.endswith(FAILED)


def relay(path: str, planner: int) -> int:
    """Hands bytes on until one side ends, and gives the exit status."""
    with socket.socket(socket.AF_UNIX) as joined, selectors.DefaultSelector() as waiting:
        joined.connect(path)
        waiting.register(0, selectors.EVENT_READ)
        waiting.register(joined, selectors.EVENT_READ)
        while True:
            for key, _ in waiting.select():
                data = os.read(key.fd, 65536)
                if key.fd == 0 and not data:
                    return 0
                if key.fd == 0:
                    joined.sendall(data)
                elif not data:
                    if planner == os.getppid() != 1:
                        os.kill(planner, signal.SIGTERM)
                    return 1
                elif not hand_on(data):
                    return 1


if __name__ == "__main__":
    if len(sys.argv) != 2:
        sys.exit(__doc__)
    try:
        sys.exit(relay(sys.argv[1], os.getppid()))
    except OSError:
        sys.exit(1)
