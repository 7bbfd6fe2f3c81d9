"""Certificates: how one is read, verified and judged."""

from __future__ import annotations

from dataclasses import dataclass, field
from enum import Enum

from reference.faults import BadLine, LineFault
from reference.namespace import Table
from reference.text import number_of, numbered_words
from reference.world import NUMBERS, ROOT, SERVERS_MAX, NodeId, Right, World


class Breach(Enum):
    """Why a member of a place that users reach is not safe."""

    INSIDE = "inside"
    OPEN = "open"
    OWNED = "owned"
    REMOVABLE = "removable"


class RowGap(Enum):
    """Why a row of a certificate is wrong by itself."""

    ABSENT = "absent"
    HIDDEN = "hidden"
    INSIDE = "inside"


# The gap of a member that is safe, and that no row names.
MISSING = "missing"


def row_of(words: list[str]) -> NodeId | None:
    """The row that the words of a line write."""
    if len(words) != 3 or words[0] != "dir":
        return None
    server = number_of(words[1], SERVERS_MAX)
    number = number_of(words[2], NUMBERS)
    if server is None or number is None:
        return None
    return NodeId(server, number)


def read_certificate(lines: list[str]) -> list[NodeId]:
    """The rows of a certificate, which rise. The first line that is not in order is told."""
    rows: list[NodeId] = []
    begun = False
    for number, words in numbered_words(lines):
        if not begun:
            if words != ["cert", "1"]:
                raise BadLine(LineFault.BAD_LINE, number)
            begun = True
            continue
        row = row_of(words)
        if row is None or (rows and row <= rows[-1]):
            raise BadLine(LineFault.BAD_LINE, number)
        rows.append(row)
    if not begun:
        raise BadLine(LineFault.BAD_LINE, 1)
    return rows


def breach(world: World, node_id: NodeId) -> Breach | None:
    """Why a node, where it is there, may not be reached."""
    node = world.node(node_id)
    if node is None:
        return None
    if world.is_inside(node_id):
        return Breach.INSIDE
    if node_id not in world.hidden:
        return None
    if any(world.may(user, node, right) for user in world.users for right in Right):
        return Breach.OPEN
    if any(world.rules(user, node) for user in world.users):
        return Breach.OWNED
    if node.number:
        parent = world.parent_of(node_id)
        if any(world.may(user, parent, Right.WRITE) or world.rules(user, parent) for user in world.users):
            return Breach.REMOVABLE
    return None


# The check of a certificate


@dataclass
class Check:
    """A certificate beside what it is to say something of."""

    world: World
    table: Table
    rows: list[NodeId]
    named: set[NodeId] = field(init=False)

    def __post_init__(self) -> None:
        self.named = set(self.rows)

    def gap(self) -> str | None:
        """The first gap, as its line."""
        return self.table_gap() or self.rows_gap() or self.root_gap() or self.children_gap()

    def table_gap(self) -> str | None:
        """The first node of the table whose number was never given."""
        for place, row in self.table.rows.items():
            for node_id in [place, *(member.node for member in row)]:
                servers = self.world.servers
                known = servers[node_id.server].next if node_id.server < len(servers) else 0
                if node_id.number >= known:
                    return f"gap table {node_id.server} {node_id.number}"
        return None

    def row_gap(self, row: NodeId) -> RowGap | None:
        """What is wrong with a row by itself."""
        if not self.world.is_directory(row):
            return RowGap.ABSENT
        if row in self.world.hidden:
            return RowGap.HIDDEN
        return RowGap.INSIDE if self.world.is_inside(row) else None

    def rows_gap(self) -> str | None:
        """The first row that is wrong by itself."""
        for number, row in enumerate(self.rows, 1):
            gap = self.row_gap(row)
            if gap:
                return f"gap row {number} {gap.value}"
        return None

    def member_gap(self, place: NodeId) -> str | None:
        """The first member of a place that is not safe, or that is to be named and isn't."""
        for member in self.table.members(place):
            node_id = member.node
            where = f"member {node_id.server} {node_id.number}"
            found = breach(self.world, node_id)
            if found:
                return f"{where} {found.value}"
            node = self.world.node(node_id)
            if node and node_id not in self.named and self.world.first_searcher(node) is not None:
                return f"{where} {MISSING}"
        return None

    def root_gap(self) -> str | None:
        """The first gap of the root."""
        gap = self.member_gap(ROOT)
        return gap and f"gap root {gap}"

    def children_gap(self) -> str | None:
        """The first gap of a child of a row."""
        for number, row in enumerate(self.rows, 1):
            for child in self.world.children_of(row):
                gap = self.member_gap(child)
                if gap:
                    return f"gap row {number} child {child.server} {child.number} {gap}"
        return None


def first_gap(world: World, table: Table, rows: list[NodeId]) -> str | None:
    """The line of the first gap of a certificate, where it has one."""
    return Check(world, table, rows).gap()


# The judge


@dataclass(frozen=True)
class Verdict:
    """What the judge says: the least certificate, or the steps to a member that is not safe."""

    rows: list[NodeId]
    steps: list[str]
    member: NodeId = ROOT
    breach: Breach | None = None

    def lines(self) -> list[str]:
        """What the program prints."""
        if self.breach is None:
            rows = [f"dir {row.server} {row.number}" for row in self.rows]
            return ["yes", "cert 1", *rows]
        end = f"breach {self.breach.value} {self.member.server} {self.member.number}"
        return ["no", *self.steps, end]


class Judge:
    """A search of all places that users may reach, the nearest first."""

    def __init__(self, world: World, table: Table) -> None:
        self.world = world
        self.table = table
        self.steps: dict[NodeId, list[str]] = {ROOT: []}
        self.found = [ROOT]
        self.rows: set[NodeId] = set()

    def verdict(self) -> Verdict:
        """What the search finds."""
        for place in self.found:
            for member in self.table.members(place):
                kind = breach(self.world, member.node)
                if kind:
                    return Verdict([], self.steps[place], member.node, kind)
            for member in self.table.members(place):
                self.enter(place, member.node)
        return Verdict(sorted(self.rows), [])

    def enter(self, place: NodeId, node_id: NodeId) -> None:
        """Notes a member that some user may search, and the places that are its children."""
        node = self.world.node(node_id)
        user = node and self.world.first_searcher(node)
        if user is None:
            return
        self.rows.add(node_id)
        for child in self.world.children_of(node_id):
            if child not in self.steps:
                name = self.world.node(child).name
                line = f"step {node_id.server} {node_id.number} {user} {name}"
                self.steps[child] = [*self.steps[place], line]
                self.found.append(child)


def judge(world: World, table: Table) -> Verdict:
    """Whether no user can get into a hidden directory."""
    return Judge(world, table).verdict()
