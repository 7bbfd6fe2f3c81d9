"""Random scripts: actions of a few clients, some of them aimed at what is seldom met."""

from __future__ import annotations

from collections.abc import Callable

from reference import wire
from reference.exporter import FIDS_MAX, REMOVE_ON_CLOSE, Fid
from reference.namespace import TRAIL_MAX
from reference.random_messages import Messages
from reference.world import ROOT, Node, NodeId, Right

Use = Callable[[int, int], None]

# How often each action is done.
SHARES = {
    "use": 80,
    "visit": 30,
    "begin_again": 7,
    "remove_member": 8,
    "open_removing": 10,
    "list_amid_changes": 6,
}


class ScriptMaker(Messages):
    """Makes a script."""

    keys = [1, 2]

    def make(self) -> list[str]:
        """The lines of a script."""
        chooser = self.chooser
        members = [member.node for row in self.table.rows.values() for member in row]
        if ROOT in members and chooser.chance(0.5):
            self.longest_trails(8)
        elif chooser.chance(0.03):
            self.all_fids(8)
        for key in self.keys:
            if chooser.chance(0.95):
                self.begin(key)
        count = len(self.lines) + chooser.randint(20, 90)
        while len(self.lines) < count:
            self.act(chooser.choice(self.keys))
        if chooser.chance(0.4):
            self.close_session(chooser.choice(self.keys))
            for _ in range(4):
                self.visit(chooser.choice(self.keys))
        return self.lines

    def act(self, key: int) -> None:
        """Does something, mostly in a session that has begun."""
        session = self.session(key)
        if (session.msize is None or not session.fids) and self.chooser.chance(0.8):
            self.begin(key)
        elif len(session.fids) > 14 and self.chooser.chance(0.5):
            self.clunk(key, self.pick(key))
        else:
            getattr(self, self.chooser.weighted(SHARES))(key)

    # Actions

    def uses(self) -> dict[tuple[Use, Callable[[Fid], bool]], float]:
        """What may be done with a fid, with which fids it mostly is, and how often."""

        def is_any(fid: Fid) -> bool:
            return True

        def is_closed(fid: Fid) -> bool:
            return not fid.is_open

        return {
            (self.walk, is_closed): 20,
            (self.walk, lambda fid: self.node(fid) is None): 3,
            (self.open, is_closed): 12,
            (self.create, lambda fid: is_closed(fid) and self.may_write(fid.user, self.node(fid))): 12,
            (self.read, lambda fid: fid.reads): 20,
            (self.write, lambda fid: fid.writes): 8,
            (self.change_stat, is_any): 12,
            (self.change_rights, is_any): 2,
            (self.clunk, is_any): 5,
            (self.remove, is_any): 4,
            (self.stat, is_any): 6,
        }

    def may_write(self, user: str, node: Node | None) -> bool:
        """Whether a user may write a node, where it is there."""
        return node is not None and self.world.may(user, node, Right.WRITE)

    def use(self, key: int) -> None:
        """Does something with a fid that is mostly meant for it."""
        use, wanted = self.chooser.weighted(self.uses())
        number = self.pick(key, wanted)
        fid = self.session(key).fids.get(number)
        if fid is None or wanted(fid) or self.chooser.chance(0.1):
            use(key, number)
        else:
            self.visit(key)

    def use_anyhow(self, key: int, number: int) -> None:
        """Does a few things with a fid that it is mostly in order to do."""
        for _ in range(self.chooser.choice([1, 1, 2, 3])):
            fid = self.session(key).fids.get(number)
            fit = {use: share for (use, wanted), share in self.uses().items() if fid is None or wanted(fid)}
            self.chooser.weighted(fit)(key, number)

    def visit(self, key: int) -> None:
        """Does anything at a node, at a place of the table or at a hidden directory."""
        chooser = self.chooser
        nodes = self.all_nodes()
        user = chooser.choice(self.known.users or ["glenda"])
        written = [it for it in nodes if self.may_write(user, self.world.node(it))]
        ruled = [it for it in nodes if self.world.rules(user, self.world.node(it))]
        goals = [nodes, written, ruled, list(self.table.rows), self.world.hidden]
        number = self.reach_node(key, chooser.choice(chooser.choice(goals) or nodes))
        if number is not None:
            self.use_anyhow(key, number)

    def begin_again(self, key: int) -> None:
        """Attaches, or now and then does what is seldom done."""
        chooser = self.chooser
        if chooser.chance(0.6):
            self.attach(key, self.fresh(key) if chooser.chance(0.85) else self.pick(key))
        else:
            seldom = [self.version, self.version, self.flush, self.authenticate, self.close_session]
            chooser.choice([*seldom, self.open_session])(key)

    def flush(self, key: int) -> None:
        self.send(key, wire.Flush(self.chooser.randrange(65536)))

    def authenticate(self, key: int) -> None:
        self.send(key, wire.Auth(9, "glenda", ""))

    def open_removing(self, key: int) -> None:
        """Opens files of a directory that are removed when their fids end, and mostly ends these."""
        chooser = self.chooser
        parent = chooser.choice([it for it in self.all_nodes() if self.world.is_directory(it)])
        files = [it for it in self.world.children_of(parent) if not self.world.is_directory(it)]
        number = None
        for _ in range(3 if files else 0):
            number = self.reach_node(key, chooser.choice(files))
            if number is not None:
                self.send(key, wire.Open(number, REMOVE_ON_CLOSE | chooser.choice([0, 0, 1, 2, 3])))
        if number is not None and chooser.chance(0.3):
            chooser.choice([self.clunk, self.remove])(key, number)
        elif chooser.chance(0.6):
            self.version(key, 8192)
            self.begin(key)
            self.stat(key, self.reach_node(key, parent) or 0)

    def remove_node(self, key: int, node_id: NodeId) -> None:
        """Removes a node, and before it what is in it."""
        for _ in range(8):
            last = node_id
            while children := self.world.node(last) and self.world.children_of(last):
                last = self.chooser.choice(children)
            number = self.reach(key, lambda place: self.table.file(place) == last)
            if number is None:
                return
            self.remove(key, number)
            if last == node_id:
                return

    def remove_member(self, key: int) -> None:
        """Removes a member of a row while a fid is at its place, and uses that."""
        chooser = self.chooser
        if not self.table.rows:
            return
        place, row = chooser.choice(list(self.table.rows.items()))
        holder = self.reach(key, lambda it: it == place)
        fid = self.session(key).fids.get(holder)
        below = self.fresh(key)
        if fid:
            self.send(key, wire.Walk(holder, below, self.names_from(fid.trail, 1, fid.user)))
        if chooser.chance(0.5):
            self.send(key, wire.Open(holder or 0, 0))
        self.remove_node(key, row[0].node if chooser.chance(0.6) else chooser.choice(row).node)
        if chooser.chance(0.5):
            self.send(key, wire.Walk(below, below, [".."]))
        self.use_anyhow(key, holder or below)

    def list_amid_changes(self, key: int) -> None:
        """Reads a directory in pieces while its members change."""
        chooser = self.chooser
        places = [it for it in [*self.table.rows, *self.all_nodes()] if len(self.names_at(it)) > 1]
        number = self.reach_node(key, chooser.choice(places)) if places else None
        if number is None:
            return
        self.send(key, wire.Open(number, 0))
        for _ in range(chooser.randint(2, 5)):
            fid = self.session(key).fids.get(number)
            if not fid:
                return
            offset = fid.expected if chooser.chance(0.9) else 0
            self.send(key, wire.Read(number, offset, chooser.choice([60, 70, 80, 140, 160, 8192])))
            member = chooser.choice(self.table.members(fid.place)).node
            children = self.world.children_of(member) if self.world.node(member) else []
            changed = self.reach_node(key, chooser.choice([member, *children]))
            if changed is not None:
                chooser.choice([self.create, self.remove, self.change_stat, self.change_rights])(key, changed)

    # Limits

    def enter(self, key: int) -> None:
        """Opens a session with a fid at the root."""
        self.open_session(key)
        self.version(key, 1_048_576)
        self.attach(key, 0, name="")

    def longest_trails(self, key: int) -> None:
        """Walks as far as a trail may go, where a name leads back to the root's own names."""
        chooser = self.chooser
        self.enter(key)
        for cycle in self.names_at(ROOT):
            self.send(key, wire.Walk(0, 1, [cycle] * 16))
            if 1 in self.session(key).fids:
                break
        else:
            return
        self.send(key, wire.Walk(1, 2, [cycle] * 16))
        self.send(key, wire.Walk(2, 3, [cycle] * 16))
        self.send(key, wire.Walk(3, 4, [cycle] * chooser.choice([14, 15, 15, 15, 16])))
        self.send(key, wire.Walk(4, 5, [chooser.choice([cycle, cycle, "none", ".."])]))
        self.send(key, wire.Walk(4, 6, [chooser.choice([cycle, "none", ".."]), cycle, cycle]))
        for _ in range(2):
            self.create(key, chooser.choice([4, 5, 6]))
        self.attach(key, 9, name=f"/{cycle}" * (TRAIL_MAX + chooser.choice([-2, -1, 0, 1, 6])))
        self.send(key, wire.Walk(9, 10, ["..", cycle, "..", ".."]))

    def all_fids(self, key: int) -> None:
        """As many fids as there may be, or nearly, and a few more."""
        chooser = self.chooser
        self.enter(key)
        for number in range(1, FIDS_MAX - chooser.randrange(2)):
            self.send(key, wire.Walk(0, number, []))
        for number in range(5):
            self.attach(key, chooser.choice([5000, 5001, 3]))
            self.send(key, wire.Walk(number, chooser.choice([5002, number, number, 6]), [".."][: number % 2]))
            self.clunk(key, FIDS_MAX - number)
