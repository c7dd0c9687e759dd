"""The caller's side of the relays: a socket, and a thread for each relay that connects to it."""
from __future__ import annotations

import socket
import threading
from dataclasses import dataclass
from typing import Callable


@dataclass(frozen=True)
class Failure:
    """What a function of the stream map raised, and the request that it was at."""

    request: str
    error: BaseException


class Host:
    """Answers each line that comes by a relay. The first failure is kept, and ends the relay that it came by."""

    def __init__(self, path: str, answer: Callable[[str], str]) -> None:
        from .relay import FAILED  # here, so that `python3 -m pddlstream_client.relay` doesn't import it twice

        self.failure: Failure | None = None
        self._failed = FAILED
        self._answer = answer
        self._lock = threading.Lock()
        self._connections: list[socket.socket] = []
        self._is_closed = False
        self._listener = socket.socket(socket.AF_UNIX)
        self._listener.bind(path)
        self._listener.listen(32)
        threading.Thread(target=self._accept, daemon=True).start()

    def close(self) -> None:
        """Ends all connections. A function that is running is let run, and its answer goes nowhere."""
        with self._lock:
            self._is_closed = True
            open_ones = [self._listener, *self._connections]
        for one in open_ones:
            try:
                one.shutdown(socket.SHUT_RDWR)
            except OSError:
                pass
            one.close()

    def _accept(self) -> None:
        while True:
            try:
                connection, _ = self._listener.accept()
            except OSError:
                return
            with self._lock:
                if self._is_closed:
                    connection.close()
                    return
                self._connections.append(connection)
            threading.Thread(target=self._talk, args=(connection,), daemon=True).start()

    def _talk(self, connection: socket.socket) -> None:
        try:
            with connection, connection.makefile("r", encoding="ascii", errors="replace", newline="\n") as lines:
                for line in lines:
                    reply = self._reply(line)
                    connection.sendall(self._failed if reply is None else f"{reply}\n".encode("ascii"))
                    if reply is None:
                        return
        except (OSError, ValueError):
            return

    def _reply(self, line: str) -> str | None:
        try:
            return self._answer(line)
        except BaseException as error:  # SystemExit too: a thread would swallow it
            with self._lock:
                if self.failure is None and not self._is_closed:
                    self.failure = Failure(line.strip(), error)
            return None
