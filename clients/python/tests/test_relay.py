"""The relay: it hands lines on, and ends with either side."""
from __future__ import annotations

import socket
import subprocess
import sys

from pddlstream_client.host import Host

from .support import InFolder, environment


class RelayTest(InFolder):
    WORDS = [sys.executable, "-m", "pddlstream_client.relay"]

    def relayed(self, requests: str) -> subprocess.CompletedProcess[str]:
        path = str(self.folder / "socket")
        return subprocess.run(
            [*self.WORDS, path], input=requests, capture_output=True, text=True, timeout=60, env=environment()
        )

    def test_answers_come_back_and_it_ends_with_its_input(self) -> None:
        host = Host(str(self.folder / "socket"), lambda line: f"yield {line.split()[-1]}")
        self.addCleanup(host.close)
        words = [*self.WORDS, str(self.folder / "socket")]
        with subprocess.Popen(
            words, stdin=subprocess.PIPE, stdout=subprocess.PIPE, text=True, env=environment()
        ) as started:
            assert started.stdin and started.stdout
            for item in ("cup", "pan"):
                started.stdin.write(f"next 0 grip {item}\n")
                started.stdin.flush()
                self.assertEqual(started.stdout.readline(), f"yield {item}\n")
            started.stdin.close()
            self.assertEqual(started.wait(20), 0)

    def test_it_fails_where_the_answer_fails(self) -> None:
        def fail(line: str) -> str:
            raise ValueError("no answer")

        host = Host(str(self.folder / "socket"), fail)
        self.addCleanup(host.close)
        with subprocess.Popen(
            [*self.WORDS, str(self.folder / "socket")], stdin=subprocess.PIPE, stdout=subprocess.PIPE, env=environment()
        ) as started:
            assert started.stdin and started.stdout
            started.stdin.write(b"next 0 grip cup\n")
            started.stdin.flush()
            self.assertEqual((started.stdout.read(), started.wait(20)), (b"", 1))
        assert host.failure is not None
        self.assertEqual((host.failure.request, str(host.failure.error)), ("next 0 grip cup", "no answer"))

    def test_it_fails_where_nobody_listens(self) -> None:
        done = self.relayed("")
        self.assertEqual((done.stdout, done.stderr, done.returncode), ("", "", 1))
        with socket.socket(socket.AF_UNIX) as deaf:
            deaf.bind(str(self.folder / "socket"))
            self.assertEqual(self.relayed("").returncode, 1)

    def test_without_a_socket_it_says_how_it_is_used(self) -> None:
        done = subprocess.run(self.WORDS, capture_output=True, text=True, timeout=60, env=environment())
        self.assertEqual(done.returncode, 1)
        self.assertIn("usage: python3 -m pddlstream_client.relay SOCKET", done.stderr)
