"""The program: the sections of an input, its commands, and their exit statuses."""

from __future__ import annotations

import re
from collections import Counter
from collections.abc import Callable
from dataclasses import dataclass, field
from typing import TypeVar

from reference.certificate import first_gap, judge, read_certificate
from reference.exporter import Exporter
from reference.faults import BadLine, LineFault, Stopped
from reference.namespace import Namespace, Table
from reference.text import bytes_of_hex, lines_of, number_of, numbered_words, words_of
from reference.world import NodeId, World, read_world

COMMANDS = ("play", "check", "verify", "ns")
SECTIONS = ("world", "ns", "cert", "script")
NUMBER_MAX = 1 << 32

# The world of an input that has none.
SMALL_WORLD = """server main
dir / 755 sys sys
dir /a 755 glenda glenda
dir /a/b 755 glenda glenda
file /a/f 644 glenda glenda 6869
user glenda
"""

Value = TypeVar("Value")
Event = Callable[[Exporter], str | None]


@dataclass(frozen=True)
class Outcome:
    """What a run of the program must write, and its exit status."""

    output: bytes
    errors: bytes
    status: int
    # How often each fault and kind was met, by words.
    met: Counter[str] = field(default_factory=Counter, compare=False)


def written(lines: list[str]) -> bytes:
    """Lines as bytes."""
    return "".join(line + "\n" for line in lines).encode()


def sections_of(text: str) -> dict[str, list[str]]:
    """The lines of each section of an input."""
    sections: dict[str, list[str]] = {}
    order = list(SECTIONS)
    for number, line in enumerate(lines_of(text), 1):
        name = line.removeprefix("%% ")
        if line.startswith("%% ") and name in order:
            sections[name] = []
            del order[: order.index(name) + 1]
        elif line.startswith("%%") or (not sections and words_of(line)):
            raise BadLine(LineFault.BAD_SECTION, number)
        elif sections:
            list(sections.values())[-1].append(line)
    return sections


def numbers_of(words: list[str]) -> list[int]:
    """The numbers that words write."""
    numbers = []
    for word in words:
        number = number_of(word, NUMBER_MAX)
        if number is None:
            raise BadLine(LineFault.BAD_LINE)
        numbers.append(number)
    return numbers


def event_of(words: list[str]) -> Event:
    """The event that the words of a line write."""
    match words:
        case ["open", session]:
            (key,) = numbers_of([session])
            return lambda exporter: exporter.open(key)
        case ["close", session, time]:
            key, now = numbers_of([session, time])
            return lambda exporter: exporter.close(key, now)
        case ["msg", session, time, digits]:
            key, now = numbers_of([session, time])
            data = bytes_of_hex(digits)
            if data:
                return lambda exporter: exporter.message(key, now, data)
    raise BadLine(LineFault.BAD_LINE)


def read_script(lines: list[str]) -> list[Event]:
    """The events of a script. The first line that is not in order is told."""
    events = []
    for number, words in numbered_words(lines):
        try:
            events.append(event_of(words))
        except BadLine as bad:
            raise BadLine(bad.fault, number) from bad
    return events


def table_lines(world: World, table: Table) -> list[str]:
    """The mount table as the lines of a namespace file that makes it."""

    def path_of(node_id: NodeId) -> str:
        server = world.servers[node_id.server]
        return f"#{server.name}{server.path_of(node_id.number)}"

    lines = []
    for place, row in table.rows.items():
        for index, member in enumerate(row):
            flags = ("a" if index else "") + ("c" if member.creates else "")
            option = f" -{flags}" if flags else ""
            lines.append(f"bind{option} {path_of(member.node)} {path_of(place)}")
    return lines


class Run:
    """A run of the program: what it has written, and what it has met."""

    def __init__(self) -> None:
        self.output: list[str] = []
        self.errors: list[str] = []
        self.met: Counter[str] = Counter()

    def outcome(self, command: str, data: bytes) -> Outcome:
        """The outcome of a command."""
        try:
            status = self.status(command, data)
        except Stopped as stopped:
            self.errors.append(stopped.line)
            status = stopped.status
        for line in self.errors:
            self.met[re.sub(r"(?<!-)\b[0-9]+", "N", line)] += 1
        return Outcome(written(self.output), written(self.errors), status, self.met)

    def status(self, command: str, data: bytes) -> int:
        """Does a command, and gives its exit status. All sections are read before."""
        if command not in COMMANDS:
            raise Stopped("p9: bad command line", 2)
        sections = self.sections(data)
        world = self.part("world", lambda: read_world(sections.get("world", lines_of(SMALL_WORLD))))
        namespace = Namespace(world)
        self.part("ns", lambda: namespace.run(sections.get("ns", [])))
        self.errors += namespace.reports
        rows = self.part("cert", lambda: read_certificate(sections["cert"])) if "cert" in sections else None
        if command == "verify" and rows is None:
            raise Stopped("cert: missing")
        events = self.part("script", lambda: read_script(sections.get("script", [])))
        match command:
            case "ns":
                self.output += table_lines(world, namespace.table)
                return 0
            case "check":
                return self.check(world, namespace.table)
            case "verify":
                return self.verify(world, namespace.table, rows)
            case _:
                return self.play(world, namespace.table, rows, events)

    def sections(self, data: bytes) -> dict[str, list[str]]:
        """The sections of an input's bytes."""
        try:
            text = data.decode()
        except UnicodeDecodeError as error:
            raise Stopped("input: not UTF-8") from error
        return self.part("bundle", lambda: sections_of(text))

    def part(self, section: str, read: Callable[[], Value]) -> Value:
        """What is read from a section. A line that is not in order ends the run."""
        try:
            return read()
        except BadLine as bad:
            raise bad.stopped(section) from bad

    def check(self, world: World, table: Table) -> int:
        """Judges a world with its table."""
        verdict = judge(world, table)
        self.output += verdict.lines()
        self.met[f"breach {verdict.breach.value}" if verdict.breach else "yes"] += 1
        return 1 if verdict.breach else 0

    def verify(self, world: World, table: Table, rows: list[NodeId]) -> int:
        """Verifies a certificate."""
        gap = first_gap(world, table, rows)
        self.output.append(gap or "ok")
        self.met[re.sub(" [0-9]+", "", gap or "ok")] += 1
        return 1 if gap else 0

    def play(self, world: World, table: Table, rows: list[NodeId] | None, events: list[Event]) -> int:
        """Plays a script, over a certificate that has no gap where there is one."""
        gap = None if rows is None else first_gap(world, table, rows)
        if gap:
            raise Stopped(f"cert: {gap}")
        exporter = Exporter(world, table, met=self.met)
        lines = [event(exporter) for event in events]
        self.output += [line for line in lines if line is not None]
        self.met["skip"] += lines.count("skip")
        return 0


def run(command: str, data: bytes) -> Outcome:
    """What the program must do with a command and an input."""
    return Run().outcome(command, data)
