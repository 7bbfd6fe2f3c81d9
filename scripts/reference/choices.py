"""Random choices, and what the world's text of a random input has."""

from __future__ import annotations

import random
from dataclasses import dataclass, field
from typing import TypeVar

from reference.faults import Refused
from reference.namespace import Table, Trail, step
from reference.world import World

Value = TypeVar("Value")

USERS = ["glenda", "rob", "ken", "sys"]
GROUPS = ["staff", "adm", "glenda", "rob", "sys", "ken"]
NAMES = ["a", "b", "c", "d", "n", "x"]
ODD_NAMES = ["", ".", "none", "a/b", "/", "k" * 255, "k" * 256, "é" * 127, "é" * 128]


class Chooser(random.Random):
    """Random choices, all by one seed."""

    def chance(self, share: float) -> bool:
        """Whether something happens that happens so often."""
        return self.random() < share

    def weighted(self, shares: dict[Value, float]) -> Value:
        """A key, each as often as its value says."""
        return self.choices(list(shares), list(shares.values()))[0]

    def put_in(self, lines: list[str], line: str) -> None:
        """Puts a line anywhere between others."""
        lines.insert(self.randrange(len(lines) + 1), line)

    def walk(self, world: World, table: Table, trail: Trail, count: int, user: str | None) -> list[str]:
        """Names, as many or fewer, that mostly can be walked from a trail."""
        names: list[str] = []
        for _ in range(count):
            names.append("..")
            if self.chance(0.03):
                names[-1] = self.choice(ODD_NAMES)
            elif self.chance(0.88):
                nodes = [world.node(member.node) for member in table.members(trail[-1])]
                children = [name for node in nodes if node for name in node.children]
                names[-1] = self.choice(children or ["..", "..", "a"])
            try:
                trail = step(world, table, trail, names[-1], user)
            except Refused:
                if self.chance(0.7):
                    break
        return names


@dataclass(frozen=True)
class Entry:
    """A file or a directory of a world's text."""

    server: str
    path: str
    is_directory: bool


@dataclass
class Known:
    """What a world's text has."""

    servers: list[str] = field(default_factory=list)
    users: list[str] = field(default_factory=list)
    groups: list[str] = field(default_factory=list)
    variables: list[str] = field(default_factory=list)
    entries: list[Entry] = field(default_factory=list)
    hidden: list[Entry] = field(default_factory=list)
