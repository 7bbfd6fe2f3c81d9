"""Writes rows of tests (docs/ROWS.md), by the rules of the manual, without p9."""

import os
import struct

from own_messages import attach, error, frame, number, qid, version

DATA = os.path.join("crates", "p9_rows", "data")


# Rows.


class Rows:
    """The text of a file of rows."""

    def __init__(self, title, by="scripts/rows"):
        self.lines, self.tag = [f"# {title} Written by {by}."], 1

    def head(self, line, *about):
        self.lines += ["", *(f"# {it}" for it in about), line]

    def put(self, *lines):
        self.lines += lines

    def msg(self, request, reply, session=1):
        """A frame and its reply; none where the frame is none."""
        self.long(f"msg {session} 0 {request.hex()}")
        self.long(f"< {reply.hex() if reply else 'skip'}", "< ")

    def long(self, line, mark=""):
        while len(line) > 118:
            self.lines.append(line[:117] + "\\")
            line = mark + line[117:]
        self.lines.append(line)

    def ask(self, what, kind, body, reply, session=1):
        """A request in words, and its reply: a body, or why it is refused."""
        self.put(f"# {what}" + (f"; refused: {reply}" if isinstance(reply, str) else ""))
        self.tag += 1
        answer = error(self.tag, reply) if isinstance(reply, str) else frame(kind + 1, self.tag, reply)
        self.msg(frame(kind, self.tag, body), answer, session)

    def bad(self, kind, body):
        """A frame that is no message."""
        self.tag = self.tag % 60_000 + 1
        self.msg(frame(kind, self.tag, body), error(self.tag, "malformed message"))

    def write(self, name, folder=DATA):
        with open(os.path.join(folder, name), "w") as file:
            file.write("\n".join(self.lines) + "\n")


# Worlds, beginnings of sessions, and long lines.

IOUNIT = number(8_168)
ROOT, SLASH = qid(0x80, 0, 0), "/"
BLOCKS = (65_536, 16_384, 1_024)


def world(*lines):
    return ["%% world", "server main", *lines, "user glenda"]


def begun(rows, msize=8_192, user="glenda"):
    rows.put("%% script", "open 1")
    rows.ask(f"version, msize {msize}", 100, version(msize), version(msize))
    rows.ask(f"attach fid 0 as {user}", 104, attach(0, user), ROOT)


def blocks(rows):
    """Parts with many equal bytes, in a request and in a reply."""
    for mark, letter, byte in (("", "x", b"x"), ("< ", "wanted x", b"x"), ("", SLASH, b"/")):
        rows.head(f"-- {letter} 1024")
        rows.put(*[mark + (byte * 32).hex() + "\\"] * 32)
        rows.head(f"-- {letter} 16384")
        rows.put(*[f"& {letter} 1024"] * 16)
        rows.head(f"-- {letter} 65536")
        rows.put(*[f"& {letter} 16384"] * 4)


def many(rows, letter, count, behind=""):
    """So many equal bytes in the midst of a line, and what follows them."""
    for block in BLOCKS:
        rows.put(*[f"& {letter} {block}"] * (count // block))
        count %= block
    mark = "< " if letter.startswith("wanted") else ""
    byte = letter[-1].encode()
    while count > 32:
        rows.put(mark + (byte * 32).hex() + "\\")
        count -= 32
    rows.put(mark + (byte * count).hex() + behind)


def long_ask(rows, what, kind, before, letter, count, behind, reply):
    """A request in which a byte is repeated so often between two pieces, and its reply."""
    rows.put(f"# {what}" + (f"; refused: {reply}" if isinstance(reply, str) else ""))
    rows.tag += 1
    head = struct.pack("<IBH", 7 + len(before) + count + len(behind), kind, rows.tag) + before
    rows.put(f"msg 1 0 {head.hex()}\\")
    many(rows, letter, count, behind.hex())
    if reply is None:
        return rows.put("< skip")
    answer = error(rows.tag, reply) if isinstance(reply, str) else frame(kind + 1, rows.tag, reply)
    rows.long(f"< {answer.hex()}", "< ")
