"""The messages of 9P2000, from bytes and to bytes."""

from __future__ import annotations

from collections.abc import Callable
from dataclasses import dataclass, field, fields
from typing import Any, ClassVar

HEADER = 7
ERROR = 107
NAMES_MAX = 16
NO_FID = 0xFFFFFFFF


class Malformed(Exception):
    """Bytes that are no message."""


class Reader:
    """A place in the bytes of a frame."""

    def __init__(self, data: bytes, position: int) -> None:
        self.data = data
        self.position = position

    def take(self, size: int) -> bytes:
        """The next bytes, so many."""
        end = self.position + size
        if end > len(self.data):
            raise Malformed
        taken = self.data[self.position : end]
        self.position = end
        return taken

    def number(self, size: int) -> int:
        """The next number of so many bytes, the lowest byte first."""
        return int.from_bytes(self.take(size), "little")

    def text(self) -> str:
        """The next text, with its length before it."""
        data = self.take(self.number(2))
        if b"\0" in data:
            raise Malformed
        try:
            return data.decode()
        except UnicodeDecodeError as error:
            raise Malformed from error

    def names(self) -> list[str]:
        """The names of a walk."""
        count = self.number(2)
        if count > NAMES_MAX:
            raise Malformed
        return [self.text() for _ in range(count)]

    def counted(self) -> bytes:
        """The bytes of a write."""
        return self.take(self.number(4))

    def stat(self) -> Stat:
        """The stat of a wstat, with both of its sizes."""
        outer = self.number(2)
        begin = self.position
        inner = self.number(2)
        if outer != inner + 2:
            raise Malformed
        stat = read_fields(Stat, self)
        if self.position - begin != outer:
            raise Malformed
        return stat


def number(value: int, size: int) -> bytes:
    """A number in so many bytes, the lowest byte first."""
    return value.to_bytes(size, "little")


def text(value: str) -> bytes:
    """A text with its length before it."""
    data = value.encode()
    return number(len(data), 2) + data


@dataclass(frozen=True)
class Codec:
    """How a field is read and written."""

    read: Callable[[Reader], Any]
    write: Callable[[Any], bytes]


def numbers(size: int) -> Codec:
    """The codec of numbers of so many bytes."""
    return Codec(lambda reader: reader.number(size), lambda value: number(value, size))


def counted(data: bytes) -> bytes:
    """Bytes with their number before them."""
    return number(len(data), 4) + data


def sized(data: bytes) -> bytes:
    """Bytes with their number before them in two bytes."""
    return number(len(data), 2) + data


def names(values: list[str]) -> bytes:
    """The names of a walk."""
    return number(len(values), 2) + b"".join(map(text, values))


BYTE, SHORT, WORD, LONG = (numbers(size) for size in (1, 2, 4, 8))
TEXT = Codec(Reader.text, text)
NAMES = Codec(Reader.names, names)
DATA = Codec(Reader.counted, counted)
STAT = Codec(Reader.stat, lambda stat: sized(stat.encoded()))


def by(codec: Codec) -> Any:
    """A field of a message, by this codec."""
    return field(metadata={"codec": codec})


def read_fields(of: type, reader: Reader) -> Any:
    """A message or a stat of which each field is read in turn."""
    return of(*(it.metadata["codec"].read(reader) for it in fields(of)))


def write_fields(value: Any) -> bytes:
    """The fields of a message or a stat."""
    return b"".join(it.metadata["codec"].write(getattr(value, it.name)) for it in fields(value))


@dataclass(frozen=True)
class Stat:
    """The fields of a stat. A text that is empty and a number of ones only are untouched by a wstat."""

    type: int = by(SHORT)
    dev: int = by(WORD)
    qid_type: int = by(BYTE)
    qid_version: int = by(WORD)
    qid_path: int = by(LONG)
    mode: int = by(WORD)
    atime: int = by(WORD)
    mtime: int = by(WORD)
    length: int = by(LONG)
    name: str = by(TEXT)
    uid: str = by(TEXT)
    gid: str = by(TEXT)
    muid: str = by(TEXT)

    def encoded(self) -> bytes:
        """The bytes of an entry of a directory: the stat with its size before it."""
        return sized(write_fields(self))


WORD_OF_ONES = 0xFFFFFFFF
LONG_OF_ONES = 0xFFFFFFFFFFFFFFFF
UNTOUCHED = Stat(
    type=0xFFFF,
    dev=WORD_OF_ONES,
    qid_type=0xFF,
    qid_version=WORD_OF_ONES,
    qid_path=LONG_OF_ONES,
    mode=WORD_OF_ONES,
    atime=WORD_OF_ONES,
    mtime=WORD_OF_ONES,
    length=LONG_OF_ONES,
    name="",
    uid="",
    gid="",
    muid="",
)


@dataclass(frozen=True)
class Request:
    """A message of a client. Its reply has the next number as its kind."""

    kind: ClassVar[int]


@dataclass(frozen=True)
class Version(Request):
    kind = 100
    msize: int = by(WORD)
    version: str = by(TEXT)


@dataclass(frozen=True)
class Auth(Request):
    kind = 102
    afid: int = by(WORD)
    uname: str = by(TEXT)
    aname: str = by(TEXT)


@dataclass(frozen=True)
class Attach(Request):
    kind = 104
    fid: int = by(WORD)
    afid: int = by(WORD)
    uname: str = by(TEXT)
    aname: str = by(TEXT)


@dataclass(frozen=True)
class Flush(Request):
    kind = 108
    oldtag: int = by(SHORT)


@dataclass(frozen=True)
class Walk(Request):
    kind = 110
    fid: int = by(WORD)
    newfid: int = by(WORD)
    names: list[str] = by(NAMES)


@dataclass(frozen=True)
class Open(Request):
    kind = 112
    fid: int = by(WORD)
    mode: int = by(BYTE)


@dataclass(frozen=True)
class Create(Request):
    kind = 114
    fid: int = by(WORD)
    name: str = by(TEXT)
    perm: int = by(WORD)
    mode: int = by(BYTE)


@dataclass(frozen=True)
class Read(Request):
    kind = 116
    fid: int = by(WORD)
    offset: int = by(LONG)
    count: int = by(WORD)


@dataclass(frozen=True)
class Write(Request):
    kind = 118
    fid: int = by(WORD)
    offset: int = by(LONG)
    data: bytes = by(DATA)


@dataclass(frozen=True)
class Clunk(Request):
    kind = 120
    fid: int = by(WORD)


@dataclass(frozen=True)
class Remove(Request):
    kind = 122
    fid: int = by(WORD)


@dataclass(frozen=True)
class StatOf(Request):
    kind = 124
    fid: int = by(WORD)


@dataclass(frozen=True)
class ChangeStat(Request):
    kind = 126
    fid: int = by(WORD)
    stat: Stat = by(STAT)


REQUESTS = {it.kind: it for it in Request.__subclasses__()}


def frame(kind: int, tag: int, body: bytes) -> bytes:
    """A frame of a kind, with its size."""
    return number(HEADER + len(body), 4) + bytes([kind]) + number(tag, 2) + body


def request_frame(tag: int, request: Request) -> bytes:
    """The frame of a request."""
    return frame(request.kind, tag, write_fields(request))


def is_whole(data: bytes, limit: int) -> bool:
    """Whether bytes are one frame, by its size."""
    return HEADER <= len(data) <= limit and int.from_bytes(data[:4], "little") == len(data)


def tag_of(data: bytes) -> int:
    """The tag of a frame."""
    return int.from_bytes(data[5:7], "little")


def read_request(data: bytes) -> Request:
    """The request that a frame is, with no byte too many."""
    if data[4] not in REQUESTS:
        raise Malformed
    reader = Reader(data, HEADER)
    request = read_fields(REQUESTS[data[4]], reader)
    if reader.position != len(data):
        raise Malformed
    return request
