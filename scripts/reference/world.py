"""Worlds, with servers, users, groups, hidden directories and variables, and the text of a world."""

from __future__ import annotations

import re
from dataclasses import dataclass, field
from enum import IntEnum
from typing import NamedTuple

from reference.faults import BadLine, LineFault
from reference.text import bytes_of_hex, is_name, is_user, names_of, numbered_words

FILE_MAX = 16_777_216
SERVERS_MAX = 65_536
SERVER_NAME_MAX = 63
NUMBERS = 1 << 48

DIRECTORY = 0x80000000
APPEND_ONLY = 0x40000000
EXCLUSIVE = 0x20000000
TEMPORARY = 0x04000000
RIGHTS = 0o777


class Right(IntEnum):
    """What a mode permits to others, by its lowest bits."""

    SEARCH = 1
    WRITE = 2
    READ = 4


class NodeId(NamedTuple):
    """A node by its server and its number there."""

    server: int
    number: int


ROOT = NodeId(0, 0)


@dataclass
class Node:
    """A file or a directory."""

    number: int
    parent: int
    name: str
    mode: int
    uid: str
    gid: str
    muid: str
    atime: int = 0
    mtime: int = 0
    version: int = 0
    data: bytearray = field(default_factory=bytearray)
    children: dict[str, int] = field(default_factory=dict)

    @property
    def is_directory(self) -> bool:
        return bool(self.mode & DIRECTORY)

    @property
    def length(self) -> int:
        """The length that a stat tells."""
        return 0 if self.is_directory else len(self.data)

    def mark(self, now: int, user: str) -> None:
        """Notes a change by a user."""
        self.version = (self.version + 1) & 0xFFFFFFFF
        self.mtime = now
        self.atime = now
        self.muid = user


class Server:
    """A tree of nodes by their numbers. No number is given twice."""

    def __init__(self, name: str) -> None:
        self.name = name
        self.nodes = {0: Node(0, 0, "/", DIRECTORY | 0o755, "sys", "sys", "sys")}
        self.next = 1

    @property
    def root(self) -> Node:
        return self.nodes[0]

    def add(self, parent: Node, node: Node) -> None:
        """Adds a node with the next number to a directory."""
        node.number = self.next
        node.parent = parent.number
        self.next += 1
        self.nodes[node.number] = node
        parent.children[node.name] = node.number

    def drop(self, node: Node) -> None:
        """Takes a node out of its directory."""
        del self.parent_of(node).children[node.name]
        del self.nodes[node.number]

    def parent_of(self, node: Node) -> Node:
        return self.nodes[node.parent]

    def at(self, names: list[str]) -> Node | None:
        """The node below these names."""
        node = self.root
        for name in names:
            if name not in node.children:
                return None
            node = self.nodes[node.children[name]]
        return node

    def path_of(self, number: int) -> str:
        """The path of a node in its server."""
        names = []
        node = self.nodes[number]
        while node.number:
            names.append(node.name)
            node = self.parent_of(node)
        return "/" + "/".join(reversed(names))


@dataclass(frozen=True)
class Group:
    """A listed group."""

    leader: str
    members: list[str]


@dataclass
class World:
    """All servers, in the order of their lines, and what the text says beside."""

    servers: list[Server] = field(default_factory=list)
    users: list[str] = field(default_factory=list)
    groups: dict[str, Group] = field(default_factory=dict)
    hidden: list[NodeId] = field(default_factory=list)
    variables: dict[str, str] = field(default_factory=dict)
    numbers: dict[str, int] = field(default_factory=dict)

    def node(self, node_id: NodeId) -> Node | None:
        """A node, where it is there."""
        if node_id.server >= len(self.servers):
            return None
        return self.servers[node_id.server].nodes.get(node_id.number)

    def parent_of(self, node_id: NodeId) -> Node:
        """The directory of a node that is there."""
        server = self.servers[node_id.server]
        return server.parent_of(server.nodes[node_id.number])

    def children_of(self, node_id: NodeId) -> list[NodeId]:
        """The children of a node that is there, by their numbers."""
        node = self.servers[node_id.server].nodes[node_id.number]
        return [NodeId(node_id.server, number) for number in sorted(node.children.values())]

    def is_directory(self, node_id: NodeId) -> bool:
        """Whether a node is there and is a directory."""
        node = self.node(node_id)
        return node is not None and node.is_directory

    def is_member(self, user: str, group: str) -> bool:
        """Whether a user is in a group. A group that no line lists has the user of its name."""
        if group in self.groups:
            return user in self.groups[group].members
        return user == group

    def leads(self, user: str, group: str) -> bool:
        """Whether a user leads a group."""
        if group in self.groups:
            return user == self.groups[group].leader
        return user == group

    def may(self, user: str, node: Node, right: Right) -> bool:
        """Whether a node's mode gives a user a right: as anybody, as its owner, or by its group."""
        if node.mode & right:
            return True
        if node.uid == user and node.mode & (right << 6):
            return True
        return bool(node.mode & (right << 3)) and self.is_member(user, node.gid)

    def rules(self, user: str, node: Node) -> bool:
        """Whether a user may change a node's mode."""
        return node.uid == user or self.leads(user, node.gid)

    def is_inside(self, node_id: NodeId) -> bool:
        """Whether a node that is there is inside a hidden directory."""
        number = node_id.number
        while number:
            number = self.servers[node_id.server].nodes[number].parent
            if (node_id.server, number) in self.hidden:
                return True
        return False

    def first_searcher(self, node: Node) -> str | None:
        """The first user who may search a directory, or may come to."""
        if not node.is_directory:
            return None
        for user in self.users:
            if self.may(user, node, Right.SEARCH) or self.rules(user, node):
                return user
        return None


# The text of a world


def mode_of(word: str, letters: str) -> int:
    """The mode that a word writes: some of these letters in their order, and three octal digits."""
    optional = "".join(letter + "?" for letter in letters)
    read = re.fullmatch(rf"({optional})([0-7]{{3}})", word)
    if not read:
        raise BadLine(LineFault.BAD_MODE)
    bits = {"a": APPEND_ONLY, "l": EXCLUSIVE, "t": TEMPORARY}
    return int(read.group(2), 8) | sum(bits[letter] for letter in read.group(1))


def path_names(path: str) -> list[str]:
    """The names of a rooted path, each of which a file may have."""
    if not path.startswith("/"):
        raise BadLine(LineFault.BAD_PATH)
    names = names_of(path)
    if not all(map(is_name, names)):
        raise BadLine(LineFault.BAD_PATH)
    return names


def test_users(names: list[str]) -> None:
    """Refuses what can't be the name of a user."""
    if not all(map(is_user, names)):
        raise BadLine(LineFault.BAD_USER)


def data_of(word: str) -> bytes:
    """The bytes of a file's line."""
    if word == "-":
        return b""
    data = bytes_of_hex(word)
    if data is None:
        raise BadLine(LineFault.BAD_HEX)
    if len(data) > FILE_MAX:
        raise BadLine(LineFault.FILE_TOO_LARGE)
    return data


class WorldReader:
    """Adds the lines of a text to a world."""

    def __init__(self) -> None:
        self.world = World()

    def server(self, name: str) -> None:
        world = self.world
        if not 1 <= len(name.encode()) <= SERVER_NAME_MAX or any(char in name for char in "/#$\0"):
            raise BadLine(LineFault.BAD_NAME)
        if name in world.numbers:
            raise BadLine(LineFault.ALREADY_THERE)
        if len(world.servers) >= SERVERS_MAX:
            raise BadLine(LineFault.TOO_MANY)
        world.numbers[name] = len(world.servers)
        world.servers.append(Server(name))

    def last_server(self) -> Server:
        """The server to which files belong now."""
        if not self.world.servers:
            raise BadLine(LineFault.NO_SERVER)
        return self.world.servers[-1]

    def directory(self, path: str, mode_word: str, uid: str, gid: str) -> None:
        server = self.last_server()
        names = path_names(path)
        mode = DIRECTORY | mode_of(mode_word, "")
        test_users([uid, gid])
        if names:
            self.add(server, names, Node(0, 0, names[-1], mode, uid, gid, uid))
            return
        root = server.root
        root.mode = mode
        root.uid = uid
        root.gid = gid
        root.muid = uid

    def file(self, path: str, mode_word: str, uid: str, gid: str, digits: str) -> None:
        server = self.last_server()
        names = path_names(path)
        if not names:
            raise BadLine(LineFault.BAD_PATH)
        mode = mode_of(mode_word, "alt")
        test_users([uid, gid])
        data = bytearray(data_of(digits))
        self.add(server, names, Node(0, 0, names[-1], mode, uid, gid, uid, data=data))

    def add(self, server: Server, names: list[str], node: Node) -> None:
        """Adds a node below a directory that is there."""
        parent = server.at(names[:-1])
        if parent is None or not parent.is_directory:
            raise BadLine(LineFault.NO_SUCH_DIRECTORY)
        if node.name in parent.children:
            raise BadLine(LineFault.ALREADY_THERE)
        server.add(parent, node)

    def user(self, name: str) -> None:
        test_users([name])
        if name in self.world.users:
            raise BadLine(LineFault.ALREADY_THERE)
        self.world.users.append(name)

    def group(self, name: str, leader: str, *members: str) -> None:
        test_users([name, leader, *members])
        if name in self.world.groups or len(set(members)) != len(members):
            raise BadLine(LineFault.ALREADY_THERE)
        self.world.groups[name] = Group(leader, list(members))

    def hide(self, name: str, path: str) -> None:
        world = self.world
        if name not in world.numbers:
            raise BadLine(LineFault.NO_SERVER)
        number = world.numbers[name]
        node = world.servers[number].at(path_names(path))
        if node is None or not node.is_directory:
            raise BadLine(LineFault.NO_SUCH_DIRECTORY)
        node_id = NodeId(number, node.number)
        if node_id in world.hidden:
            raise BadLine(LineFault.ALREADY_THERE)
        world.hidden.append(node_id)

    def variable(self, name: str, value: str) -> None:
        if "/" in name or "$" in name:
            raise BadLine(LineFault.BAD_NAME)
        if name in self.world.variables:
            raise BadLine(LineFault.ALREADY_THERE)
        self.world.variables[name] = value

    def line(self, words: list[str]) -> None:
        """Adds what a line says."""
        readers = {
            "server": (self.server, 1),
            "dir": (self.directory, 4),
            "file": (self.file, 5),
            "user": (self.user, 1),
            "group": (self.group, 2),
            "hide": (self.hide, 2),
            "set": (self.variable, 2),
        }
        if words[0] not in readers:
            raise BadLine(LineFault.UNKNOWN_WORD)
        reader, count = readers[words[0]]
        given = len(words) - 1
        if given < count or (given > count and words[0] != "group"):
            raise BadLine(LineFault.WORD_COUNT)
        reader(*words[1:])


def read_world(lines: list[str]) -> World:
    """The world that the lines of a text say. The first line that is not in order is told."""
    reader = WorldReader()
    for number, words in numbered_words(lines):
        try:
            reader.line(words)
        except BadLine as bad:
            raise BadLine(bad.fault, number) from bad
    if not reader.world.servers:
        raise BadLine(LineFault.NO_SERVER)
    return reader.world
