"""What the scripts have in common that try the built program p9d: messages, a client, a server, and an export."""

from __future__ import annotations

import os
import resource
import socket
import struct
import subprocess
import sys
import time
from pathlib import Path

from own_messages import tattach

RESULTS = {"passed": 0, "failed": 0}
USERS = ("anna", "bob", "carol")
UNKNOWN = b"unknown user"
RVERSION, RATTACH, RERROR = 101, 105, 107


def program(name: str, variable: str) -> str:
    """The path of a program, which is built where it isn't there."""
    path = os.path.abspath(os.environ.get(variable, os.path.join("crates", name, "out", name)))
    if not os.path.exists(path):
        subprocess.run(["rt", "run"], cwd=os.path.join("crates", name), stdin=subprocess.DEVNULL, stdout=sys.stderr, check=False)
    return path


P9D, P9_ADMIN = program("p9d", "P9D"), program("p9_admin", "P9_ADMIN")


def tell(what: str, holds: bool, got: object = "") -> None:
    """Counts whether something holds, and prints what was got where it doesn't."""
    RESULTS["passed" if holds else "failed"] += 1
    if not holds:
        print(f"FAILED {what}: {str(got)[:800]}", flush=True)


def attach(user: bytes, fid: int = 0, tag: int = 1, aname: bytes = b"") -> bytes:
    return tattach(tag, fid, user, aname)


class Client:
    """A connection to an address: the path of a socket, or a port of loopback."""

    def __init__(self, address: str | int) -> None:
        if isinstance(address, int):
            self.stream = socket.create_connection(("127.0.0.1", address), timeout=20)
        else:
            self.stream = socket.socket(socket.AF_UNIX)
            self.stream.settimeout(20)
            self.stream.connect(address)
        self.data = b""

    def send(self, data: bytes) -> None:
        self.stream.sendall(data)

    def reply(self) -> tuple[int, int, bytes]:
        """The kind, the tag and the body of the next reply; 0 for the end."""
        while len(self.data) < 4 or len(self.data) < struct.unpack_from("<I", self.data)[0]:
            more = self.stream.recv(65536)
            if not more:
                return 0, 0, b""
            self.data += more
        size, kind, tag = struct.unpack_from("<IBH", self.data)
        body, self.data = self.data[7:size], self.data[size:]
        return kind, tag, body

    def ask(self, data: bytes) -> tuple[int, int, bytes]:
        self.send(data)
        return self.reply()

    def close(self) -> None:
        self.stream.close()


class Server:
    """A server of an export at addresses, in a folder."""

    def __init__(
        self, folder: str, *words: str, export: str = "export", files: int | None = None, under: tuple[str, ...] = ()
    ) -> None:
        limit = None if files is None else lambda: resource.setrlimit(resource.RLIMIT_NOFILE, (files, files))
        self.errors = open(os.path.join(folder, "errors"), "w+b")
        self.child = subprocess.Popen(
            [*under, P9D, *words, export], cwd=folder, stdin=subprocess.PIPE, stdout=subprocess.PIPE, stderr=self.errors, preexec_fn=limit
        )
        self.lines = [self.child.stdout.readline().decode() for word in words if word == "-a"]

    def port(self, number: int = 0) -> int:
        return int(self.lines[number].rsplit(":", 1)[1])

    def told(self) -> str:
        return Path(self.errors.name).read_text(encoding="utf-8", errors="replace")

    def tells(self, *words: str) -> bool:
        """Whether it tells all of this within two seconds."""
        for _ in range(40):
            if all(word in self.told() for word in words):
                return True
            time.sleep(0.05)
        return False

    def end(self) -> int:
        """Ends the standard input, and returns the exit status."""
        self.child.stdin.close()
        status = self.child.wait(timeout=30)
        self.child.stdout.close()
        return status


def make_export(folder: str, more: str = "", *words: str) -> None:
    """A sealed export of three users, with a hidden directory, and more lines of its world; words are further ones for the sealing."""
    world = ["%% world", "server main", "dir / 755 sys sys", "dir /vault 700 root root", "file /vault/key 600 root root 01"]
    world += more.splitlines()
    world += [f"user {user}" for user in USERS] + ["hide main /vault"]
    with open(os.path.join(folder, "world"), "w", encoding="utf-8") as file:
        file.write("\n".join(world) + "\n")
    with open(os.path.join(folder, "world"), "rb") as file:
        subprocess.run([P9_ADMIN, "seal", *words, "-o", "export"], cwd=folder, stdin=file, check=True)


def run(folder: str, *words: str) -> tuple[int, str, str]:
    """The exit status, the output and the errors of a run that ends by itself."""
    ran = subprocess.run([P9D, *words], cwd=folder, stdin=subprocess.DEVNULL, capture_output=True, timeout=20, check=False)
    return ran.returncode, ran.stdout.decode(errors="replace"), ran.stderr.decode(errors="replace")
