"""The exporter: what each message of a session changes, and its reply."""

from __future__ import annotations

from collections import Counter
from collections.abc import Callable
from dataclasses import dataclass, field, fields

from reference import wire
from reference.faults import Fault, Refused
from reference.namespace import TRAIL_MAX, Table, Trail, directories_at, step
from reference.text import is_name, names_of
from reference.wire import NO_FID, Stat, frame, number, text
from reference.world import (
    APPEND_ONLY,
    DIRECTORY,
    EXCLUSIVE,
    FILE_MAX,
    NUMBERS,
    RIGHTS,
    ROOT,
    TEMPORARY,
    Node,
    NodeId,
    Right,
    World,
)

MSIZE_MIN = 512
MSIZE_MAX = 1_048_576
# The bytes of a read's or write's message that are not data.
OVERHEAD = 24
FIDS_MAX = 1024

TRUNCATE = 0x10
CLOSE_ON_EXEC = 0x20
REMOVE_ON_CLOSE = 0x40
ACCESS = 0x03
READING, WRITING, BOTH, EXECUTING = range(4)
# The rights that each kind of access asks for.
NEEDED = {
    READING: [Right.READ],
    WRITING: [Right.WRITE],
    BOTH: [Right.READ, Right.WRITE],
    EXECUTING: [Right.SEARCH],
}

FILE_KINDS = APPEND_ONLY | EXCLUSIVE | TEMPORARY
MODE_BITS = DIRECTORY | FILE_KINDS | RIGHTS
# A new file gets no right to execute by the rights of its directory.
FILE_RIGHTS = 0o666

FIXED_FIELDS = ("type", "dev", "qid_type", "qid_version", "qid_path", "atime", "uid", "muid")

# The place of an entry in a listing: its member's and its own number.
Cursor = tuple[int, int]


@dataclass
class Fid:
    """A fid: who uses it, where it is, and how it is open."""

    user: str
    trail: Trail
    is_open: bool = False
    access: int = READING
    removes: bool = False
    expected: int = 0
    cursor: Cursor | None = None

    @property
    def place(self) -> NodeId:
        return self.trail[-1]

    @property
    def reads(self) -> bool:
        return self.is_open and self.access != WRITING

    @property
    def writes(self) -> bool:
        return self.is_open and self.access in (WRITING, BOTH)

    def open(self, mode: int) -> None:
        """Opens it, with a listing at its beginning."""
        self.is_open = True
        self.access = mode & ACCESS
        self.removes = bool(mode & REMOVE_ON_CLOSE)
        self.expected = 0
        self.cursor = None


@dataclass
class Session:
    """A session: its msize, where a version has set it, and its fids."""

    msize: int | None = None
    fids: dict[int, Fid] = field(default_factory=dict)

    @property
    def room(self) -> int:
        """The most bytes that a read or write may carry."""
        return self.msize - OVERHEAD

    def fid(self, given: int) -> Fid:
        """A fid that is in use."""
        if given not in self.fids:
            raise Refused(Fault.UNKNOWN_FID)
        return self.fids[given]

    def closed_fid(self, given: int) -> Fid:
        """A fid that is in use and not open."""
        fid = self.fid(given)
        if fid.is_open:
            raise Refused(Fault.FID_OPEN)
        return fid

    def test_new(self, given: int) -> None:
        """Refuses a number that no new fid may have."""
        if given == NO_FID:
            raise Refused(Fault.UNKNOWN_FID)
        if given in self.fids:
            raise Refused(Fault.FID_IN_USE)
        if len(self.fids) >= FIDS_MAX:
            raise Refused(Fault.TOO_MANY_FIDS)


def open_mode(mode: int) -> int:
    """A mode without what means nothing here."""
    kept = mode & ~CLOSE_ON_EXEC
    if kept & ~(TRUNCATE | REMOVE_ON_CLOSE | ACCESS):
        raise Refused(Fault.BAD_OPEN_MODE)
    return kept


def qid(node_id: NodeId, node: Node) -> bytes:
    """The qid of a node."""
    return number(node.mode >> 24, 1) + number(node.version, 4) + number(qid_path(node_id), 8)


def qid_path(node_id: NodeId) -> int:
    """The number that is a node's in all servers."""
    return node_id.server * NUMBERS + node_id.number


def stat_of(node_id: NodeId, node: Node) -> Stat:
    """The stat of a node."""
    return Stat(
        type=0,
        dev=node_id.server,
        qid_type=node.mode >> 24,
        qid_version=node.version,
        qid_path=qid_path(node_id),
        mode=node.mode,
        atime=node.atime,
        mtime=node.mtime,
        length=node.length,
        name=node.name,
        uid=node.uid,
        gid=node.gid,
        muid=node.muid,
    )


@dataclass
class Exporter:
    """All sessions over one world and one table."""

    world: World
    table: Table
    sessions: dict[int, Session] = field(default_factory=dict)
    # How often each request was answered and refused, by words.
    met: Counter[str] = field(default_factory=Counter)

    # Events

    def open(self, key: int) -> str | None:
        """Opens a session, or tells that it is open."""
        if key in self.sessions:
            return "skip"
        self.sessions[key] = Session()
        return None

    def close(self, key: int, now: int) -> str | None:
        """Ends a session, with all its fids."""
        if key not in self.sessions:
            return "skip"
        self.clunk_all(self.sessions.pop(key), now)
        return None

    def message(self, key: int, now: int, data: bytes) -> str:
        """The reply to bytes of a session, in hexadecimal digits."""
        if key not in self.sessions or not wire.is_whole(data, MSIZE_MAX):
            return "skip"
        return self.reply(self.sessions[key], now, data).hex()

    def reply(self, session: Session, now: int, data: bytes) -> bytes:
        """The reply to a frame."""
        tag = wire.tag_of(data)
        what = "no message"
        try:
            request = self.request(session, data)
            what = type(request).__name__
            if session.msize is None and not isinstance(request, wire.Version):
                raise Refused(Fault.VERSION_NOT_SET)
            body = self.handlers()[type(request)](session, now, request)
        except Refused as refused:
            self.met[f"{what}: {refused.fault.value}"] += 1
            return frame(wire.ERROR, tag, text(refused.fault.value))
        self.met[f"{what}: answered"] += 1
        return frame(request.kind + 1, tag, body)

    def request(self, session: Session, data: bytes) -> wire.Request:
        """The request that a frame is."""
        if session.msize is not None and len(data) > session.msize:
            raise Refused(Fault.MALFORMED)
        try:
            return wire.read_request(data)
        except wire.Malformed as error:
            raise Refused(Fault.MALFORMED) from error

    def handlers(self) -> dict[type, Callable[[Session, int, wire.Request], bytes]]:
        """What answers each request."""
        return {
            wire.Version: self.set_version,
            wire.Auth: self.authenticate,
            wire.Attach: self.attach,
            wire.Flush: self.flush,
            wire.Walk: self.walk,
            wire.Open: self.open_fid,
            wire.Create: self.create,
            wire.Read: self.read,
            wire.Write: self.write,
            wire.Clunk: self.clunk,
            wire.Remove: self.remove,
            wire.StatOf: self.stat,
            wire.ChangeStat: self.change_stat,
        }

    # Nodes

    def node_of(self, fid: Fid) -> tuple[NodeId, Node]:
        """The node that a fid's place shows, which must be there."""
        node_id = self.table.file(fid.place)
        node = self.world.node(node_id)
        if node is None:
            raise Refused(Fault.PHASE_ERROR)
        return node_id, node

    def test(self, user: str, node: Node, right: Right) -> None:
        """Refuses a user who lacks a right."""
        if not self.world.may(user, node, right):
            raise Refused(Fault.PERMISSION_DENIED)

    def drop(self, node_id: NodeId, node: Node, now: int, user: str) -> None:
        """Removes a node from its directory, which is marked."""
        server = self.world.servers[node_id.server]
        parent = server.parent_of(node)
        server.drop(node)
        parent.mark(now, user)

    def end_fid(self, session: Session, given: int, now: int) -> None:
        """Ends a fid. One that removes on close removes its file, where that is there."""
        fid = session.fids.pop(given)
        node_id = self.table.file(fid.place)
        node = self.world.node(node_id)
        if fid.is_open and fid.removes and node:
            self.drop(node_id, node, now, fid.user)

    def clunk_all(self, session: Session, now: int) -> None:
        """Ends all fids, by rising number."""
        for given in sorted(session.fids):
            self.end_fid(session, given, now)

    # Requests that begin

    def set_version(self, session: Session, now: int, request: wire.Version) -> bytes:
        if request.msize < MSIZE_MIN:
            raise Refused(Fault.SMALL_MSIZE)
        msize = min(request.msize, MSIZE_MAX)
        if request.version != "9P2000" and not request.version.startswith("9P2000."):
            return number(msize, 4) + text("unknown")
        self.clunk_all(session, now)
        session.msize = msize
        return number(msize, 4) + text("9P2000")

    def authenticate(self, session: Session, now: int, request: wire.Auth) -> bytes:
        raise Refused(Fault.NO_AUTHENTICATION)

    def flush(self, session: Session, now: int, request: wire.Flush) -> bytes:
        return b""

    def attach(self, session: Session, now: int, request: wire.Attach) -> bytes:
        session.test_new(request.fid)
        if request.afid != NO_FID:
            raise Refused(Fault.NO_AUTHENTICATION)
        if request.uname not in self.world.users:
            raise Refused(Fault.UNKNOWN_USER)
        if request.aname and not request.aname.startswith("/"):
            raise Refused(Fault.UNKNOWN_ATTACH_NAME)
        if self.world.node(self.table.file(ROOT)) is None:
            raise Refused(Fault.PHASE_ERROR)
        trail: Trail = (ROOT,)
        for name in names_of(request.aname):
            trail = step(self.world, self.table, trail, name, request.uname)
        fid = Fid(request.uname, trail[-1:])
        node_id, node = self.node_of(fid)
        if not node.is_directory:
            raise Refused(Fault.NOT_DIRECTORY)
        session.fids[request.fid] = fid
        return qid(node_id, node)

    def walk(self, session: Session, now: int, request: wire.Walk) -> bytes:
        fid = session.closed_fid(request.fid)
        if request.newfid != request.fid:
            session.test_new(request.newfid)
        trail = fid.trail
        qids: list[bytes] = []
        for name in request.names:
            try:
                trail = step(self.world, self.table, trail, name, fid.user)
            except Refused as refused:
                if not qids:
                    raise
                self.met[f"Walk: a part, then {refused.fault.value}"] += 1
                return number(len(qids), 2) + b"".join(qids)
            node_id = self.table.file(trail[-1])
            qids.append(qid(node_id, self.world.node(node_id)))
        if request.newfid == request.fid:
            fid.trail = trail
        else:
            session.fids[request.newfid] = Fid(fid.user, trail)
        return number(len(qids), 2) + b"".join(qids)

    # Requests that open

    def open_fid(self, session: Session, now: int, request: wire.Open) -> bytes:
        fid = session.closed_fid(request.fid)
        node_id, node = self.node_of(fid)
        mode = open_mode(request.mode)
        if node.is_directory and mode != 0:
            raise Refused(Fault.IS_DIRECTORY)
        self.test_open(fid.user, node_id, node, mode)
        if node.mode & EXCLUSIVE and self.is_open(node_id):
            raise Refused(Fault.EXCLUSIVE_USE)
        if mode & TRUNCATE and not node.mode & APPEND_ONLY:
            node.data.clear()
            node.mark(now, fid.user)
        fid.open(mode)
        return qid(node_id, node) + number(session.room, 4)

    def test_open(self, user: str, node_id: NodeId, node: Node, mode: int) -> None:
        """Refuses a user who lacks a right that a mode needs."""
        for right in NEEDED[mode & ACCESS]:
            self.test(user, node, right)
        if mode & TRUNCATE:
            self.test(user, node, Right.WRITE)
        if mode & REMOVE_ON_CLOSE:
            self.test(user, self.world.parent_of(node_id), Right.WRITE)

    def is_open(self, node_id: NodeId) -> bool:
        """Whether a fid of any session has a node open."""
        fids = [fid for session in self.sessions.values() for fid in session.fids.values()]
        return any(fid.is_open and self.table.file(fid.place) == node_id for fid in fids)

    def create(self, session: Session, now: int, request: wire.Create) -> bytes:
        fid = session.closed_fid(request.fid)
        if not is_name(request.name):
            raise Refused(Fault.BAD_FILE_NAME)
        mode = open_mode(request.mode)
        self.test_permissions(request.perm, mode)
        target = self.creating_member(fid.place)
        directory = self.world.node(target)
        self.test(fid.user, directory, Right.WRITE)
        if request.name in directory.children:
            raise Refused(Fault.FILE_EXISTS)
        server = self.world.servers[target.server]
        if server.next >= NUMBERS:
            raise Refused(Fault.QIDS_USED_UP)
        if len(fid.trail) == TRAIL_MAX:
            raise Refused(Fault.PATH_TOO_DEEP)
        rights = RIGHTS if request.perm & DIRECTORY else FILE_RIGHTS
        given = request.perm & (~rights | directory.mode & rights)
        user = fid.user
        node = Node(0, 0, request.name, given, user, directory.gid, user, now, now)
        server.add(directory, node)
        directory.mark(now, user)
        node_id = NodeId(target.server, node.number)
        fid.trail = (*fid.trail, node_id)
        fid.open(mode)
        return qid(node_id, node) + number(session.room, 4)

    def test_permissions(self, perm: int, mode: int) -> None:
        """Refuses permissions that no new file may have, and modes that no new directory may."""
        if perm & ~MODE_BITS:
            raise Refused(Fault.BAD_OPEN_MODE)
        if perm & DIRECTORY and perm & FILE_KINDS:
            raise Refused(Fault.BAD_OPEN_MODE)
        if perm & DIRECTORY and mode != 0:
            raise Refused(Fault.IS_DIRECTORY)

    def creating_member(self, place: NodeId) -> NodeId:
        """The first member of a place that permits creation, which must be a directory."""
        directories_at(self.world, self.table, place)
        for member in self.table.members(place):
            if not member.creates:
                continue
            node = self.world.node(member.node)
            if node is None:
                raise Refused(Fault.PHASE_ERROR)
            if not node.is_directory:
                raise Refused(Fault.NOT_DIRECTORY)
            return member.node
        raise Refused(Fault.CREATION_FORBIDDEN)

    # Requests of open fids

    def read(self, session: Session, now: int, request: wire.Read) -> bytes:
        fid = session.fid(request.fid)
        if not fid.reads:
            raise Refused(Fault.FID_NOT_OPEN)
        _, node = self.node_of(fid)
        room = min(request.count, session.room)
        if node.is_directory:
            return wire.counted(self.listing(fid, request.offset, room))
        node.atime = now
        return wire.counted(bytes(node.data[request.offset : request.offset + room]))

    def listing(self, fid: Fid, offset: int, room: int) -> bytes:
        """The entries behind the cursor, as many as there is room for."""
        if offset not in (0, fid.expected):
            raise Refused(Fault.BAD_DIRECTORY_OFFSET)
        cursor = None if offset == 0 else fid.cursor
        entries = self.entries(fid, cursor)
        data = b""
        for place, node_id in entries:
            entry = stat_of(node_id, self.world.node(node_id)).encoded()
            if len(data) + len(entry) > room:
                break
            data += entry
            cursor = place
        if entries and not data:
            raise Refused(Fault.SMALL_READ_COUNT)
        fid.cursor = cursor
        fid.expected = offset + len(data)
        return data

    def entries(self, fid: Fid, cursor: Cursor | None) -> list[tuple[Cursor, NodeId]]:
        """The entries behind a cursor, without the later members that the user may not read."""
        found = []
        for place, member in enumerate(self.table.members(fid.place)):
            node = self.world.node(member.node)
            if node is None or not node.is_directory:
                continue
            if place != 0 and not self.world.may(fid.user, node, Right.READ):
                continue
            for child in self.world.children_of(member.node):
                found.append(((place, child.number), child))
        return [it for it in found if cursor is None or it[0] > cursor]

    def write(self, session: Session, now: int, request: wire.Write) -> bytes:
        fid = session.fid(request.fid)
        if not fid.writes:
            raise Refused(Fault.FID_NOT_OPEN)
        _, node = self.node_of(fid)
        size = len(request.data)
        if size == 0:
            return number(0, 4)
        begin = len(node.data) if node.mode & APPEND_ONLY else request.offset
        if begin + size > FILE_MAX:
            raise Refused(Fault.FILE_TOO_LARGE)
        gap = max(0, begin - len(node.data))
        node.data += bytes(gap)
        node.data[begin : begin + size] = request.data
        node.mark(now, fid.user)
        return number(size, 4)

    # Requests that end, tell and change

    def clunk(self, session: Session, now: int, request: wire.Clunk) -> bytes:
        session.fid(request.fid)
        self.end_fid(session, request.fid, now)
        return b""

    def remove(self, session: Session, now: int, request: wire.Remove) -> bytes:
        fid = session.fid(request.fid)
        del session.fids[request.fid]
        node_id, node = self.node_of(fid)
        if node.number == 0:
            raise Refused(Fault.IS_ROOT)
        self.test(fid.user, self.world.parent_of(node_id), Right.WRITE)
        if node.children:
            raise Refused(Fault.NOT_EMPTY)
        self.drop(node_id, node, now, fid.user)
        return b""

    def stat(self, session: Session, now: int, request: wire.StatOf) -> bytes:
        node_id, node = self.node_of(session.fid(request.fid))
        return wire.sized(stat_of(node_id, node).encoded())

    def change_stat(self, session: Session, now: int, request: wire.ChangeStat) -> bytes:
        fid = session.fid(request.fid)
        node_id, node = self.node_of(fid)
        change = Change(self.world, node_id, node, fid.user, request.stat)
        change.test()
        change.apply(now)
        return b""


class Change:
    """A wstat of a node by a user."""

    def __init__(self, world: World, node_id: NodeId, node: Node, user: str, stat: Stat) -> None:
        self.world = world
        self.node = node
        self.user = user
        self.stat = stat
        self.parent = world.parent_of(node_id) if node.number else None
        present = stat_of(node_id, node)
        unchanged = [(getattr(wire.UNTOUCHED, it.name), getattr(present, it.name)) for it in fields(Stat)]
        given = [(it.name, getattr(stat, it.name)) for it in fields(Stat)]
        self.touched = {name for (name, value), same in zip(given, unchanged) if value not in same}

    def deny_unless(self, permitted: bool) -> None:
        """Refuses what is not permitted."""
        if not permitted:
            raise Refused(Fault.PERMISSION_DENIED)

    def test(self) -> None:
        """Refuses a change that any field forbids, before anything is changed."""
        if self.touched & set(FIXED_FIELDS):
            raise Refused(Fault.FIXED_FIELD)
        if "mode" in self.touched:
            self.test_mode()
        if "name" in self.touched:
            self.test_name()
        if "length" in self.touched:
            self.test_length()
        if self.touched & {"mode", "mtime"}:
            self.deny_unless(self.world.rules(self.user, self.node))
        if "gid" in self.touched:
            self.deny_unless(self.may_give_group(self.stat.gid))

    def test_mode(self) -> None:
        """Refuses a mode that the node may not have."""
        mode = self.stat.mode
        kind_changes = (mode ^ self.node.mode) & DIRECTORY
        if kind_changes or mode & ~MODE_BITS or (self.node.is_directory and mode & FILE_KINDS):
            raise Refused(Fault.FIXED_FIELD)

    def test_name(self) -> None:
        """Refuses a name that the node may not have."""
        if self.parent is None:
            raise Refused(Fault.IS_ROOT)
        if not is_name(self.stat.name):
            raise Refused(Fault.BAD_FILE_NAME)
        self.deny_unless(self.world.may(self.user, self.parent, Right.WRITE))
        if self.stat.name in self.parent.children:
            raise Refused(Fault.FILE_EXISTS)

    def test_length(self) -> None:
        """Refuses a length that the node may not have."""
        if self.node.is_directory:
            raise Refused(Fault.IS_DIRECTORY)
        self.deny_unless(self.world.may(self.user, self.node, Right.WRITE))
        if self.stat.length > FILE_MAX:
            raise Refused(Fault.FILE_TOO_LARGE)

    def may_give_group(self, group: str) -> bool:
        """Whether the user may give the node to a group."""
        world = self.world
        owns = self.node.uid == self.user and world.is_member(self.user, group)
        return owns or (world.leads(self.user, self.node.gid) and world.leads(self.user, group))

    def apply(self, now: int) -> None:
        """Makes the change."""
        node = self.node
        if "name" in self.touched:
            del self.parent.children[node.name]
            node.name = self.stat.name
            self.parent.children[node.name] = node.number
        if "length" in self.touched:
            del node.data[self.stat.length :]
            node.data += bytes(self.stat.length - len(node.data))
            node.mark(now, self.user)
        if "mode" in self.touched:
            node.mode = self.stat.mode
        if "mtime" in self.touched:
            node.mtime = self.stat.mtime
            node.muid = self.user
        if "gid" in self.touched:
            node.gid = self.stat.gid
        if self.touched and self.parent is not None:
            self.parent.mark(now, self.user)
