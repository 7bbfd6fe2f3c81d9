"""Random inputs of the program. Each seed makes one."""

from __future__ import annotations

from dataclasses import dataclass
from enum import Enum, auto

from reference.certificate import judge
from reference.choices import Chooser, Known
from reference.exporter import Exporter
from reference.faults import BadLine
from reference.namespace import Namespace, Table
from reference.program import SMALL_WORLD
from reference.random_namespace import NamespaceMaker
from reference.random_script import ScriptMaker
from reference.random_world import WorldMaker
from reference.text import lines_of
from reference.world import NodeId, World, read_world

BAD_ROWS = (
    "cert 1;cert 2;dir 0 0;dir 65536 0;dir 0 281474976710656;dir 0;dir 0 1 2;dir -1 0;dir 0 x;foo;dir 1 0;"
    "dir 0 +1;Dir 0 9;dir 70000 0;dir 0 99999999999999999999999;file 0 1;;# c;"
    "dir 00 0000000000000000000000000000000000001"
).split(";")
BAD_CERTIFICATES = [[], ["# only"], [""], ["cert 01"], ["cert"], ["cert 1 1"], ["Cert 1"], ["dir 0 0"]]
BAD_EVENTS = (
    "open;open x;open 4294967296;open 1 2;msg 1 0;msg 1 0 -;msg 1 0 0;msg 1 0 zz;msg 1 4294967296 00;foo;"
    "msg 4294967296 0 00;close 1;close 1 x;close 4294967296 0;close 1 0 0;Open 1;msg 1 0 00 00;open -1;"
    "open 000000000000000000000000000000009;msg 1 0 0000000;msg 1 00 ff;msg 1 0 AB;open 1\r;open ९"
).split(";")
BAD_SECTIONS = "%%;%% foo;%%world;%%  world;%% ns ; %% ns;%% ns\r;%%%;%% World;%% world;%% cert".split(";")
FIRST_LINES = ["", "# x", "x", "  ", "\t", "\r", " %% world"]
BAD_BYTES = [b"\xff", b"\xc0\x80", b"\xed\xa0\x80", b"\xe2\x28\xa1", b"\xf4\x90\x80\x80"]


class Profile(Enum):
    """What an input is to be about."""

    PLAY = auto()
    GUARD = auto()
    NAMESPACE = auto()
    TEXT = auto()


PROFILES = {Profile.PLAY: 50, Profile.GUARD: 28, Profile.NAMESPACE: 12, Profile.TEXT: 20}


@dataclass(frozen=True)
class Bundle:
    """An input, and what it is about."""

    name: str
    data: bytes


class BundleMaker:
    """Makes an input of a profile."""

    def __init__(self, chooser: Chooser, profile: Profile) -> None:
        self.chooser = chooser
        self.profile = profile
        self.known = Known()
        self.is_guarded = profile is Profile.GUARD
        self.is_faulty = profile is Profile.TEXT

    def make(self) -> bytes:
        """An input."""
        chooser = self.chooser
        world = WorldMaker(chooser, self.known, self.is_guarded).lines(self.is_faulty)
        lines = ["%% world", *world]
        if chooser.chance(0.02):
            self.known = Known(servers=["main"], users=["glenda"])
            world = lines_of(SMALL_WORLD)
            lines = []
        lines += self.later_lines(world)
        if self.is_faulty and chooser.chance(0.25):
            self.damage(lines)
        data = ("\n".join(lines) + ("\n" if chooser.chance(0.8) else "")).encode()
        if self.is_faulty and chooser.chance(0.04):
            place = chooser.randrange(len(data) + 1)
            data = data[:place] + chooser.choice(BAD_BYTES) + data[place:]
        return data

    def later_lines(self, world_lines: list[str]) -> list[str]:
        """The sections behind the world."""
        chooser = self.chooser
        try:
            world = read_world(world_lines)
        except BadLine:
            return []
        most = 20 if self.profile is Profile.NAMESPACE else chooser.choice([0, 3, 12])
        maker = NamespaceMaker(chooser, self.known, Namespace(world))
        lines = maker.make(chooser.randint(0, most), self.is_faulty)
        namespace = Namespace(world)
        try:
            namespace.run(lines)
        except BadLine:
            return ["%% ns", *lines]
        more = ["%% ns", *lines] if lines or chooser.chance(0.3) else []
        if chooser.chance(0.97 if self.is_guarded else 0.1):
            more += ["%% cert", *self.certificate(world, namespace.table)]
        if self.profile is Profile.PLAY or chooser.chance(0.5):
            more += ["%% script", *self.script(world, namespace.table)]
        return more

    def certificate(self, world: World, table: Table) -> list[str]:
        """The lines of a certificate, which is often right."""
        chooser = self.chooser
        nodes = [NodeId(i, it) for i, server in enumerate(world.servers) for it in server.nodes]
        directories = [it for it in nodes if world.is_directory(it)]
        shut = [it for it in directories if it in world.hidden or world.is_inside(it)]
        rows = judge(world, table).rows or [it for it in directories if it not in shut]
        absent = [NodeId(0, 60), NodeId(9, 0), NodeId(65535, 0), NodeId(0, world.servers[0].next)]
        share = chooser.random()
        if share < 0.12 and rows:
            rows.remove(chooser.choice(rows))
        elif share < 0.3:
            rows.append(chooser.choice(chooser.choice([shut or nodes, directories, nodes, absent])))
        lines = ["cert 1", *(f"dir {row.server} {row.number}" for row in sorted(set(rows)))]
        if chooser.chance(0.06):
            chooser.put_in(lines, chooser.choice(BAD_ROWS))
        return chooser.choice(BAD_CERTIFICATES) if chooser.chance(0.03) else lines

    def script(self, world: World, table: Table) -> list[str]:
        """The lines of a script."""
        lines = ["open 1"]
        if not self.is_faulty:
            lines = ScriptMaker(self.chooser, self.known, Exporter(world, table)).make()
        if self.chooser.chance(0.5 if self.is_faulty else 0.01):
            self.chooser.put_in(lines, self.chooser.choice(BAD_EVENTS))
        return lines

    def damage(self, lines: list[str]) -> None:
        """Makes the sections of an input wrong."""
        chooser = self.chooser
        chooser.put_in(lines, chooser.choice(BAD_SECTIONS))
        if chooser.chance(0.3):
            lines[0] = chooser.choice(FIRST_LINES)
        if chooser.chance(0.3):
            lines[-1] += chooser.choice([" ", "\r", "\t"])


def bundle(seed: int) -> Bundle:
    """The input of a seed."""
    chooser = Chooser(seed)
    profile = chooser.weighted(PROFILES)
    return Bundle(profile.name.lower(), BundleMaker(chooser, profile).make())
