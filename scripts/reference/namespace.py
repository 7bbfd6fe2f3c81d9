"""The mount table, walks in it, and namespace files."""

from __future__ import annotations

import re
from dataclasses import dataclass, field
from typing import NamedTuple

from reference.faults import BadLine, Fault, LineFault, OperationFault, Refused
from reference.text import lines_of, names_of, numbered_words
from reference.world import ROOT, NodeId, Right, World

TRAIL_MAX = 64
NESTED_MAX = 8
FLAGS = "abcC"

Trail = tuple[NodeId, ...]


class Member(NamedTuple):
    """A member of a union, and whether files may be created in it."""

    node: NodeId
    creates: bool


class Table:
    """The mount table: the members of each place on which something is mounted or bound."""

    def __init__(self) -> None:
        self.rows: dict[NodeId, list[Member]] = {}

    def members(self, place: NodeId) -> list[Member]:
        """The members of a place. One that has no row is its own member."""
        return self.rows.get(place) or [Member(place, True)]

    def file(self, place: NodeId) -> NodeId:
        """The node that a place shows: its first member, whether or not that is there."""
        return self.members(place)[0].node


# Walks


def directories_at(world: World, table: Table, place: NodeId) -> list[NodeId]:
    """The members of a place that are there and are directories."""
    alive = [member.node for member in table.members(place) if world.node(member.node)]
    if not alive:
        raise Refused(Fault.PHASE_ERROR)
    directories = [node_id for node_id in alive if world.is_directory(node_id)]
    if not directories:
        raise Refused(Fault.NOT_DIRECTORY)
    return directories


def child(world: World, directories: list[NodeId], name: str, user: str | None) -> NodeId:
    """The first child of a name in directories that a user may search. No user may search all."""
    if user is not None:
        directories = [it for it in directories if world.may(user, world.node(it), Right.SEARCH)]
        if not directories:
            raise Refused(Fault.PERMISSION_DENIED)
    for node_id in directories:
        number = world.node(node_id).children.get(name)
        if number is not None:
            return NodeId(node_id.server, number)
    raise Refused(Fault.NOT_FOUND)


def step(world: World, table: Table, trail: Trail, name: str, user: str | None) -> Trail:
    """The trail that one name of a walk leads to."""
    directories = directories_at(world, table, trail[-1])
    if name == "..":
        new = trail[:-1] if len(trail) > 1 else trail
    else:
        found = child(world, directories, name, user)
        if len(trail) == TRAIL_MAX:
            raise Refused(Fault.PATH_TOO_DEEP)
        new = trail + (found,)
    if world.node(table.file(new[-1])) is None:
        raise Refused(Fault.PHASE_ERROR)
    return new


# The lines of a namespace file


@dataclass(frozen=True)
class Operation:
    """A line of a namespace file: its word, its flags without dashes, and the words behind them."""

    line: int
    word: str
    flags: str
    words: list[str]


# How many words an operation may have behind its flags.
WORD_COUNTS: dict[str, range | None] = {
    "mount": range(2, 4),
    "bind": range(2, 3),
    "cd": range(1, 2),
    "unmount": range(1, 3),
    "clear": range(1),
    ".": range(1, 2),
    "import": None,
}


def operation_of(line: int, words: list[str]) -> Operation:
    """The operation that the words of a line write."""
    word, *rest = words
    if word not in WORD_COUNTS:
        raise BadLine(LineFault.UNKNOWN_WORD, line)
    flags = []
    while word in ("mount", "bind") and rest and rest[0].startswith("-"):
        flags.append(rest.pop(0)[1:])
    counts = WORD_COUNTS[word]
    if counts is not None and len(rest) not in counts:
        raise BadLine(LineFault.WORD_COUNT, line)
    joined = "".join(flags)
    if "" in flags or any(flag not in FLAGS for flag in joined) or {"a", "b"} <= set(joined):
        raise BadLine(LineFault.BAD_FLAG, line)
    return Operation(line, word, joined, rest)


def read_operations(lines: list[str]) -> list[Operation]:
    """The operations that lines write. The first line that is not in order is told."""
    return [operation_of(line, words) for line, words in numbered_words(lines)]


def with_values(word: str, variables: dict[str, str]) -> str:
    """A word with the values of its variables. One that isn't there is empty."""
    return re.sub(r"\$([^/$ \t]*)", lambda found: variables.get(found.group(1), ""), word)


@dataclass
class Namespace:
    """A name space that is being made: its table, the current directory, and what was skipped."""

    world: World
    table: Table = field(default_factory=Table)
    current: Trail = (ROOT,)
    reports: list[str] = field(default_factory=list)

    def run(self, lines: list[str], depth: int = 0, outer: int | None = None) -> None:
        """Does what lines say. The reports of an included file name the line that includes it."""
        for operation in read_operations(lines):
            line = operation.line if outer is None else outer
            words = [with_values(word, self.world.variables) for word in operation.words]
            try:
                self.operate(operation.word, operation.flags, words, depth, line)
            except Refused as refused:
                self.reports.append(f"ns:{line}: {refused.fault.value}")

    def operate(self, word: str, flags: str, words: list[str], depth: int, line: int) -> None:
        """Does one operation."""
        match word:
            case "mount":
                self.mount(flags, *words)
            case "bind":
                new = self.resolve(words[0])
                old = self.resolve(words[1])
                self.bind([member.node for member in self.table.members(new[-1])], old[-1], flags)
            case "cd":
                self.change_directory(words[0])
            case "unmount":
                self.unmount(words)
            case "clear":
                self.table.rows.clear()
            case ".":
                self.include(words[0], depth, line)
            case _:
                raise Refused(OperationFault.NOT_OFFERED)

    def resolve(self, path: str) -> Trail:
        """The trail of a path: from the root, from a server's root, or from the current directory."""
        trail = self.current
        if path.startswith("#"):
            name, _, rest = path[1:].partition("/")
            trail = (NodeId(self.server(name), 0),)
            path = "/" + rest
        elif path.startswith("/"):
            trail = (ROOT,)
        for name in names_of(path):
            trail = step(self.world, self.table, trail, name, None)
        return trail

    def server(self, name: str) -> int:
        """The number of a server."""
        if name not in self.world.numbers:
            raise Refused(OperationFault.UNKNOWN_SERVER)
        return self.world.numbers[name]

    def mount(self, flags: str, name: str, path: str, spec: str = "") -> None:
        """Mounts the root of a server on a place."""
        server = self.server(name)
        if spec:
            raise Refused(OperationFault.SPEC_NOT_OFFERED)
        self.bind([NodeId(server, 0)], self.resolve(path)[-1], flags)

    def bind(self, new: list[NodeId], old: NodeId, flags: str) -> None:
        """Binds nodes on a place: instead of its members, before them or behind them."""
        on_directory = self.world.is_directory(old)
        joins = "a" in flags or "b" in flags
        if on_directory != self.world.is_directory(new[0]) or (joins and not on_directory):
            raise Refused(OperationFault.INCONSISTENT_MOUNT)
        members = [Member(node_id, place == 0 and "c" in flags) for place, node_id in enumerate(new)]
        row = self.table.rows.get(old) or [Member(old, False)]
        if "b" in flags:
            members = members + row
        elif "a" in flags:
            members = row + members
        self.table.rows[old] = members

    def change_directory(self, path: str) -> None:
        """Makes a directory the current one."""
        trail = self.resolve(path)
        if not self.world.is_directory(self.table.file(trail[-1])):
            raise Refused(Fault.NOT_DIRECTORY)
        self.current = trail

    def unmount(self, words: list[str]) -> None:
        """Takes a member, or all, from a place."""
        new = self.resolve(words[0]) if len(words) == 2 else None
        old = self.resolve(words[-1])[-1]
        if old not in self.table.rows:
            raise Refused(OperationFault.NOT_MOUNTED)
        row = [] if new is None else self.without(self.table.rows[old], self.table.file(new[-1]))
        if row:
            self.table.rows[old] = row
        else:
            del self.table.rows[old]

    def without(self, row: list[Member], node_id: NodeId) -> list[Member]:
        """A row without the first member that is this node."""
        nodes = [member.node for member in row]
        if node_id not in nodes:
            raise Refused(OperationFault.NOT_IN_UNION)
        place = nodes.index(node_id)
        return row[:place] + row[place + 1 :]

    def include(self, path: str, depth: int, line: int) -> None:
        """Does what a file says."""
        if depth >= NESTED_MAX:
            raise Refused(OperationFault.NESTED_TOO_DEEP)
        node = self.world.node(self.table.file(self.resolve(path)[-1]))
        if node.is_directory:
            raise Refused(OperationFault.BAD_INCLUDED_FILE)
        try:
            lines = lines_of(node.data.decode())
            read_operations(lines)
        except (UnicodeDecodeError, BadLine) as error:
            raise Refused(OperationFault.BAD_INCLUDED_FILE) from error
        self.run(lines, depth + 1, line)
