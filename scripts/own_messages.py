"""Messages of 9P2000 as bytes, by the layouts of the manual, and the bodies of some."""

from __future__ import annotations

import struct

NOFID, NOTAG = 0xFFFFFFFF, 0xFFFF


def text(name: bytes | str) -> bytes:
    data = name.encode() if isinstance(name, str) else name
    return struct.pack("<H", len(data)) + data


def frame(kind: int, tag: int, body: bytes = b"") -> bytes:
    return struct.pack("<IBH", 7 + len(body), kind, tag) + body


def error(tag: int, why: str) -> bytes:
    return frame(107, tag, text(why))


def version(msize=8192, name="9P2000"):
    return struct.pack("<I", msize) + text(name)


def attach(fid, uname="glenda", aname=""):
    return struct.pack("<II", fid, NOFID) + text(uname) + text(aname)


def walk(fid, newfid, *names):
    return struct.pack("<IIH", fid, newfid, len(names)) + b"".join(map(text, names))


def create(fid, name, perm=0o644, mode=1):
    return struct.pack("<I", fid) + text(name) + struct.pack("<IB", perm, mode)


def write(fid, offset, data):
    return struct.pack("<IQI", fid, offset, len(data)) + data


def stat(names=("", "", "", ""), mode=NOFID, qid=b"\xff" * 13, length=(1 << 64) - 1, times=NOFID, kind=0xFFFF, dev=NOFID, atime=None):
    """A stat; what isn't named is not to be changed. `times` is both times, but where the time of last access is named."""
    read = times if atime is None else atime
    body = struct.pack("<HI", kind, dev) + qid + struct.pack("<III", mode, read, times) + struct.pack("<Q", length)
    body += b"".join(map(text, names))
    return struct.pack("<H", len(body)) + body


def counted(data, more=0):
    return struct.pack("<H", len(data) + more) + data


def qid(kind, vers, number):
    return struct.pack("<BIQ", kind, vers, number)


def walked(*qids):
    return struct.pack("<H", len(qids)) + b"".join(qids)


def number(count):
    return struct.pack("<I", count)


# Requests, as whole messages.


def tversion(msize=8192, tag=NOTAG):
    return frame(100, tag, version(msize))


def tattach(tag, fid, user="glenda", name=""):
    return frame(104, tag, attach(fid, user, name))


def tflush(tag, other):
    return frame(108, tag, struct.pack("<H", other))


def twalk(tag, fid, newfid, *names):
    return frame(110, tag, walk(fid, newfid, *names))


def topen(tag, fid, mode=0):
    return frame(112, tag, struct.pack("<IB", fid, mode))


def tcreate(tag, fid, name, perm=0o644, mode=1):
    return frame(114, tag, create(fid, name, perm, mode))


def tread(tag, fid, offset, count):
    return frame(116, tag, struct.pack("<IQI", fid, offset, count))


def twrite(tag, fid, offset, data):
    return frame(118, tag, write(fid, offset, data))


def tclunk(tag, fid):
    return frame(120, tag, number(fid))


def tremove(tag, fid):
    return frame(122, tag, number(fid))


def tstat(tag, fid):
    return frame(124, tag, number(fid))


def twstat(tag, fid, changed):
    return frame(126, tag, number(fid) + counted(changed))
