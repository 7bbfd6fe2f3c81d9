"""Random messages over an exporter that runs beside, so that they meet what is there."""

from __future__ import annotations

from collections.abc import Callable
from dataclasses import replace

from reference import wire
from reference.choices import GROUPS, NAMES, ODD_NAMES, Chooser, Known
from reference.exporter import OVERHEAD, Exporter, Fid, Session, stat_of
from reference.faults import Refused
from reference.namespace import Trail, step
from reference.wire import NO_FID, UNTOUCHED, Request
from reference.world import APPEND_ONLY, DIRECTORY, EXCLUSIVE, FILE_MAX, RIGHTS, ROOT, TEMPORARY, Node, NodeId

LONG_MAX = (1 << 64) - 1
MSIZES = [512, 512, 513, 536, 561, 600, 700, 1024, 8192, 8192, 65536, 1048576, 1048577, 0xFFFFFFFF, 511, 0]
VERSIONS = {"9P2000": 80, "9P2000.u": 6, "9P2000.": 2, "9P3000": 4, "": 2, "9P2000L": 2, "9P200": 1}
STRANGERS = ["nobody", "", "glenda", "sys", "u" * 64, "staff"]
# Modes by how often they are opened with.
OPEN_MODES = {
    **{0x00: 30, 0x01: 15, 0x02: 25, 0x03: 8, 0x10: 6, 0x11: 10, 0x12: 8, 0x13: 3, 0x40: 5, 0x41: 4},
    **{0x42: 6, 0x52: 3, 0x21: 2, 0x20: 2, 0x04: 1, 0x08: 1, 0x80: 1, 0xFF: 1, 0x53: 1, 0x73: 1},
}
FILE_KINDS = {0: 60, APPEND_ONLY: 12, EXCLUSIVE: 12, TEMPORARY: 4, APPEND_ONLY | EXCLUSIVE: 4, 1 << 28: 3}
SOFT_FIELDS = ["mode", "mtime", "length", "name", "gid"]
ALL_FIELDS = list(UNTOUCHED.__dict__)

Goal = Callable[[NodeId], bool]


class Messages:
    """Makes messages, notes them as a script's lines, and does them."""

    def __init__(self, chooser: Chooser, known: Known, exporter: Exporter) -> None:
        self.chooser = chooser
        self.known = known
        self.exporter = exporter
        self.world = exporter.world
        self.table = exporter.table
        self.lines: list[str] = []
        self.clock = chooser.choice([0, 0, 100])
        self.damaged = chooser.choice([0, 0.01, 0.03, 0.12])

    # Events

    def open_session(self, key: int) -> None:
        self.lines.append(f"open {key}")
        self.exporter.open(key)

    def close_session(self, key: int) -> None:
        now = self.now()
        self.lines.append(f"close {key} {now}")
        self.exporter.close(key, now)

    def send_bytes(self, key: int, data: bytes) -> None:
        now = self.now()
        digits = data.hex()
        self.lines.append(f"msg {key} {now} {digits.upper() if self.chooser.chance(0.02) else digits}")
        self.exporter.message(key, now, data)

    def send(self, key: int, request: Request) -> None:
        """Sends a request, which is damaged now and then."""
        tag = self.chooser.choice([1, 1, 2, 3, 0xFFFF, 0, self.chooser.randrange(65536)])
        data = wire.request_frame(tag, request)
        self.send_bytes(key, self.with_damage(data) if self.chooser.chance(self.damaged) else data)

    def now(self) -> int:
        """The time, which mostly goes on."""
        self.clock += self.chooser.choice([0, 1, 1, 1, 2, 7])
        return self.chooser.choice([0, 0xFFFFFFFF, 1 << 31]) if self.chooser.chance(0.02) else self.clock

    def with_damage(self, data: bytes) -> bytes:
        """A frame with something wrong in it. Its size is mostly put right."""
        chooser = self.chooser
        place = chooser.randrange(4, len(data))
        end = chooser.randrange(4, len(data) + 1)
        changed = chooser.choice([data[place] ^ 1 << chooser.randrange(8), 0, 0xFF, 0x2F, 0x2E])
        forms = [
            data[:place] + bytes([changed]) + data[place + 1 :],
            data[:place] + data[place + 1 :],
            data[:end],
            data + chooser.randbytes(chooser.randint(1, 4)),
            data[:4] + bytes([chooser.randrange(98, 130)]) + data[5:],
        ]
        new = chooser.choice(forms)
        return new if chooser.chance(0.2) else len(new).to_bytes(4, "little") + new[4:]

    # What is there

    def session(self, key: int) -> Session:
        """A session, or an empty one where it isn't open."""
        return self.exporter.sessions.get(key) or Session()

    def node(self, fid: Fid) -> Node | None:
        return self.world.node(self.table.file(fid.place))

    def fresh(self, key: int) -> int:
        """A number for a new fid, mostly one that is free."""
        fids = self.session(key).fids
        if self.chooser.chance(0.06):
            return self.chooser.choice([0, 1, 2, 3, 77, 0xFFFFFFFE, NO_FID])
        return next(number for number in range(len(fids) + 1) if number not in fids)

    def pick(self, key: int, wanted: Callable[[Fid], bool] = lambda fid: True) -> int:
        """A fid in use, mostly one that is wanted."""
        fids = self.session(key).fids
        if not fids or self.chooser.chance(0.05):
            return self.chooser.choice([0, 1, 2, 3, 5, 9, NO_FID])
        return self.chooser.choice([number for number, fid in fids.items() if wanted(fid)] or list(fids))

    def pick_closed(self, key: int) -> int:
        return self.pick(key, lambda fid: not fid.is_open)

    def all_nodes(self) -> list[NodeId]:
        servers = enumerate(self.world.servers)
        return [NodeId(index, number) for index, server in servers for number in server.nodes]

    def names_from(self, trail: Trail, count: int, user: str) -> list[str]:
        """Names that mostly can be walked from a trail."""
        return self.chooser.walk(self.world, self.table, trail, count, user)

    def names_at(self, place: NodeId) -> list[str]:
        """The names of the children of all members of a place."""
        nodes = [self.world.node(member.node) for member in self.table.members(place)]
        return list(dict.fromkeys(name for node in nodes if node for name in node.children))

    def route(self, fid: Fid, goal: Goal) -> list[str] | None:
        """The names of a shortest walk from a fid to a goal."""
        found: list[tuple[Trail, list[str]]] = [(fid.trail, [])]
        seen = {fid.place}
        for trail, names in found:
            if names and goal(trail[-1]):
                return names
            if len(names) >= 6 or len(found) > 300:
                continue
            for name in self.names_at(trail[-1]):
                try:
                    new = step(self.world, self.table, trail, name, fid.user)
                except Refused:
                    continue
                if new[-1] not in seen:
                    seen.add(new[-1])
                    found.append((new, [*names, name]))
        return None

    def reach(self, key: int, goal: Goal) -> int | None:
        """A new fid at a goal, where a fid of the session has a way there."""
        start = self.pick_closed(key)
        fid = self.session(key).fids.get(start)
        names = fid and self.route(fid, goal)
        if not names:
            return None
        number = self.fresh(key)
        self.send(key, wire.Walk(start, number, names))
        return number

    def reach_node(self, key: int, node_id: NodeId) -> int | None:
        """A new fid at a node, by its own place or by one that shows it."""
        return self.reach(key, lambda place: node_id in (place, self.table.file(place)))

    # Requests

    def begin(self, key: int) -> None:
        """Opens a session with a version and one attach or more."""
        if key not in self.exporter.sessions:
            self.open_session(key)
        self.version(key, self.chooser.choice([8192, 8192, 512, 560, 600, 1024, 65536]))
        for fid in range(self.chooser.choice([1, 2, 3])):
            self.attach(key, fid)

    def version(self, key: int, msize: int | None = None) -> None:
        chooser = self.chooser
        if msize is None:
            self.send(key, wire.Version(chooser.choice(MSIZES), chooser.weighted(VERSIONS)))
        else:
            self.send(key, wire.Version(msize, "9P2000"))

    def attach(self, key: int, fid: int, user: str | None = None, name: str | None = None) -> None:
        chooser = self.chooser
        if user is None:
            known = self.known.users if chooser.chance(0.95) else STRANGERS
            user = chooser.choice(known or STRANGERS)
        if name is None:
            name = self.attach_name(user)
        afid = NO_FID if chooser.chance(0.97) else chooser.choice([0, 1, fid])
        self.send(key, wire.Attach(fid, afid, user, name))

    def attach_name(self, user: str) -> str:
        """The path of an attach."""
        chooser = self.chooser
        path = "/" + "/".join(self.names_from((ROOT,), chooser.randint(1, 4), user))
        odd = [f"{path}/", f"/q/..{path}", f"{path}/..", f"{path}/none", path[1:], "..", "/.", "//", "/.."]
        return chooser.weighted({"": 50, path: 30, "/": 5, chooser.choice(odd): 15})

    def walk(self, key: int, start: int) -> None:
        chooser = self.chooser
        fid = self.session(key).fids.get(start) or Fid("glenda", (ROOT,))
        count = chooser.weighted({0: 8, 1: 35, 2: 30, 3: 15, 5: 8, 16: 3, 17: 1})
        number = chooser.weighted({self.fresh(key): 72, self.pick(key): 8, start: 20})
        self.send(key, wire.Walk(start, number, self.names_from(fid.trail, count, fid.user)))

    def node_of(self, key: int, number: int) -> Node | None:
        """The node of a fid, where both are there."""
        fid = self.session(key).fids.get(number)
        return fid and self.node(fid)

    def open(self, key: int, number: int) -> None:
        node = self.node_of(key, number)
        mode = self.chooser.weighted(OPEN_MODES)
        if node and node.is_directory and self.chooser.chance(0.75):
            mode = 0
        self.send(key, wire.Open(number, mode))

    def create(self, key: int, number: int) -> None:
        chooser = self.chooser
        news = [f"new{chooser.randrange(5)}", f"new{chooser.randrange(5)}", chooser.choice(NAMES)]
        name = chooser.choice(ODD_NAMES if chooser.chance(0.1) else news)
        perm = chooser.choice([0o644, 0o666, 0o777, 0o755, 0o600, 0, 0o700, 0o444, chooser.randrange(512)])
        mode = chooser.weighted(OPEN_MODES)
        if chooser.chance(0.3):
            perm |= DIRECTORY
            mode = 0 if chooser.chance(0.9) else mode
        if not perm & DIRECTORY or chooser.chance(0.05):
            perm |= chooser.weighted(FILE_KINDS)
        self.send(key, wire.Create(number, name, perm, mode))

    def read(self, key: int, number: int) -> None:
        chooser = self.chooser
        node = self.node_of(key, number)
        if node and node.is_directory:
            self.read_directory(key, number, self.session(key).fids[number])
            return
        size = len(node.data) if node else 10
        offset = chooser.choice([0, 0, 0, 1, max(0, size - 1), size, size + 1, LONG_MAX, 1 << 63, 1 << 32])
        self.send(key, wire.Read(number, offset, chooser.choice([0, 1, 2, 10, 100, 8192, 0xFFFFFFFF])))

    def read_directory(self, key: int, number: int, fid: Fid) -> None:
        """Reads entries, now and then as many bytes as some of them have."""
        chooser = self.chooser
        odd = [1, fid.expected + 1, max(0, fid.expected - 1), LONG_MAX, fid.expected + (1 << 32)]
        offset = chooser.choice([0, fid.expected] if chooser.chance(0.9) else odd)
        count = chooser.choice([8192, 8192, 8192, 0xFFFFFFFF, 0, 60, 67, 68, 70, 80, 136, 140, 160, 200])
        if chooser.chance(0.3):
            entries = self.exporter.entries(fid, None if offset == 0 else fid.cursor)
            some = [node_id for _, node_id in entries[: chooser.randint(1, 3)]]
            sizes = [len(stat_of(it, self.world.node(it)).encoded()) for it in some]
            count = max(0, sum(sizes) + chooser.choice([0, 0, -1, 1]))
        self.send(key, wire.Read(number, offset, count))

    def write(self, key: int, number: int) -> None:
        chooser = self.chooser
        node = self.node_of(key, number)
        size = len(node.data) if node else 10
        offsets = [0, 0, 1, max(0, size - 1), size, size, size + 1, size + 5, chooser.randrange(600)]
        count = chooser.choice([0, 1, 2, 3, 10, 50])
        msize = self.session(key).msize or 8192
        if chooser.chance(0.04) and msize < 9000:
            count = msize - OVERHEAD + chooser.choice([0, 1, 1, 2])
        far = [FILE_MAX - count, FILE_MAX - count, FILE_MAX - count + 1, LONG_MAX, 1 << 63]
        offset = chooser.choice(far if chooser.chance(0.15) else offsets)
        self.send(key, wire.Write(number, offset, chooser.randbytes(count)))

    def change(self, key: int, number: int, **touched: int | str) -> None:
        """A wstat that touches some fields only."""
        self.send(key, wire.ChangeStat(number, replace(UNTOUCHED, **touched)))

    def change_stat(self, key: int, number: int) -> None:
        """A wstat that touches any fields."""
        chooser = self.chooser
        node = self.node_of(key, number)
        if not node:
            self.change(key, number)
            return
        node_id = self.table.file(self.session(key).fids[number].place)
        stat = stat_of(node_id, node)
        names = chooser.sample(SOFT_FIELDS, chooser.weighted({0: 5, 1: 55, 2: 15, 3: 12, 4: 6, 5: 3}))
        if chooser.chance(0.13):
            names = chooser.sample(ALL_FIELDS, chooser.randint(1, 3))
        values = {name: self.value_of(name, getattr(stat, name), node) for name in names}
        self.send(key, wire.ChangeStat(number, replace(stat if chooser.chance(0.2) else UNTOUCHED, **values)))
        if chooser.chance(0.3):
            self.send(key, wire.StatOf(number))

    def value_of(self, name: str, present: int | str, node: Node) -> int | str:
        """A value for a field of a wstat."""
        chooser = self.chooser
        match name:
            case "mode":
                rights = chooser.choice([0o777, 0o755, 0o700, 0o644, 0o666, 0, chooser.randrange(512)])
                kinds = [APPEND_ONLY, EXCLUSIVE, APPEND_ONLY, EXCLUSIVE, TEMPORARY, DIRECTORY, 1 << 28]
                kind = chooser.choice(kinds) if chooser.chance(0.35) else 0
                return (present & ~RIGHTS | rights) ^ kind
            case "mtime":
                return chooser.choice([0, 5, 1234567, 0xFFFFFFFE, self.clock, present])
            case "length":
                usual = [0, 0, present + 1, present + 1, max(0, present - 1), present, present + 20, 1]
                far = [FILE_MAX, FILE_MAX + 1, LONG_MAX - 1, 1 << 63]
                return chooser.choice([*usual, chooser.choice(far)])
            case "name":
                usual = ["ren0", "ren1", "ren2", "ren3", *NAMES, present]
                return chooser.choice(ODD_NAMES if chooser.chance(0.12) else usual)
            case "gid":
                known = self.known.groups * 3 + self.known.users * 2
                return chooser.choice([*known, *GROUPS, "g" * 64, present])
            case "uid" | "muid":
                return chooser.choice([node.uid, node.muid, "rob", "glenda", "x"])
        return chooser.choice([present, present ^ 1, 0, 1, getattr(UNTOUCHED, name)])

    def change_rights(self, key: int, number: int) -> None:
        """A wstat that gives a node other rights."""
        node = self.node_of(key, number)
        if node:
            rights = self.chooser.choice([0o777, 0o777, 0o755, 0o700, 0o711, 0o733, 0o333, 0o070, 0o007, 0])
            self.change(key, number, mode=node.mode & ~RIGHTS | rights)

    def clunk(self, key: int, number: int) -> None:
        self.send(key, wire.Clunk(number))

    def remove(self, key: int, number: int) -> None:
        self.send(key, wire.Remove(number))

    def stat(self, key: int, number: int) -> None:
        self.send(key, wire.StatOf(number))
