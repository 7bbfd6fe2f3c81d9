"""Random namespace files, as lines."""

from __future__ import annotations

from reference.choices import NAMES, Chooser, Known
from reference.faults import BadLine
from reference.namespace import Namespace
from reference.world import ROOT, NodeId

FLAGS = {
    **{"": 40, "-a ": 15, "-b ": 10, "-c ": 8, "-ac ": 10, "-bc ": 6},
    **{"-C ": 1, "-a -c ": 2, "-aC ": 1, "-cc ": 1, "-b -C -c ": 1},
}
FORMS = {
    "bind {flags}{one} {two}": 50,
    "bind {flags}{file} {one}": 5,
    "mount {flags}{server} {one}": 11,
    "mount {flags}{server} {one} {word}": 1,
    "cd {one}": 10,
    "unmount {one}": 8,
    "unmount {one} {two}": 8,
    "clear": 1,
    ". {file}": 9,
    "import {word}": 1,
    "# {word}": 1,
}
WORDS = ["spec", "$none", "$", "$home", "none", "", "a b"]
ODD_WORDS = "bind bind mount mount cd unmount clear . import foo BIND $x -a ..".split()
ODD_FLAGS = "-a -b -c -C - -z -ab -ac -- -aa -bC -cz -aé -c-".split()
ODD_PATHS = ["/", "/a", "a", "#main", "$e", "-a", "-", "$", "$-a", "\r"]


class NamespaceLines:
    """Makes lines of namespace files that know nothing of the table."""

    def __init__(self, chooser: Chooser, known: Known) -> None:
        self.chooser = chooser
        self.known = known

    def path(self) -> str:
        """A path of any names."""
        chooser = self.chooser
        odd = ["..", ".", "", "none", "$", *(f"${name}" for name in self.known.variables)]
        pools = [NAMES if chooser.chance(0.85) else odd for _ in range(chooser.randint(1, 3))]
        names = "/".join(map(chooser.choice, pools))
        server = f"#{chooser.choice(self.known.servers)}"
        return chooser.weighted({f"/{names}": 55, names: 15, f"{server}/{names}": 11, server: 4, "/": 15})

    def line(self) -> str:
        """An operation."""
        chooser = self.chooser
        files = [f"#{it.server}{it.path}" for it in self.known.entries if not it.is_directory]
        return chooser.weighted(FORMS).format(
            flags=chooser.weighted(FLAGS),
            one=self.path(),
            two=self.path(),
            file=chooser.choice(files) if files and chooser.chance(0.8) else self.path(),
            server=chooser.choice(self.known.servers * 8 + ["none", "$q", "$mid"]),
            word=chooser.choice(WORDS),
        )

    def odd_line(self) -> str:
        """A line that is mostly not in order."""
        chooser = self.chooser
        flags = [chooser.choice(ODD_FLAGS) for _ in range(chooser.weighted({0: 50, 1: 30, 2: 20}))]
        words = [chooser.choice(ODD_PATHS) for _ in range(chooser.randint(0, 4))]
        return " ".join([chooser.choice(ODD_WORDS), *flags, *words])


class NamespaceMaker(NamespaceLines):
    """Makes the lines of a namespace file by what the table has when each is done."""

    def __init__(self, chooser: Chooser, known: Known, namespace: Namespace) -> None:
        super().__init__(chooser, known)
        self.namespace = namespace
        self.lines: list[str] = []

    def make(self, count: int, is_faulty: bool) -> list[str]:
        """The lines of a namespace file. Some bind on hidden directories, so that these are covered."""
        chooser = self.chooser
        for entry in self.known.hidden:
            if chooser.chance(0.4):
                self.add(f"bind {chooser.weighted(FLAGS)}{self.path()} #{entry.server}{entry.path}")
        for _ in range(count):
            place = self.path()
            self.add(self.line())
            for _ in range(chooser.choice([2, 3]) if chooser.chance(0.08) else 0):
                self.add(f"bind {chooser.choice(['-a ', '-b ', '-ac ', '-bc '])}{self.path()} {place}")
        names = list(self.namespace.world.servers[0].root.children)
        if names and chooser.chance(0.07):
            self.add(f"bind {chooser.choice(['', '-a ', '-b '])}/ /{chooser.choice(names)}")
        if chooser.chance(0.3 if is_faulty else 0.01):
            chooser.put_in(self.lines, self.odd_line())
        if chooser.chance(0.05):
            self.lines = [line.replace(" ", chooser.choice(["  ", "\t", " \t"])) for line in self.lines]
        return self.lines

    def add(self, line: str) -> None:
        """Adds a line and does it."""
        self.lines.append(line)
        try:
            self.namespace.run([line])
        except BadLine:
            pass

    def path(self) -> str:
        """A path that mostly leads somewhere."""
        chooser = self.chooser
        namespace = self.namespace
        servers = namespace.world.servers
        server = chooser.randrange(len(servers))
        starts = {
            ((ROOT,), "/"): 60,
            (namespace.current, ""): 15,
            ((NodeId(server, 0),), f"#{servers[server].name}/"): 20,
        }
        if chooser.chance(0.1):
            return super().path()
        trail, before = chooser.weighted(starts)
        count = chooser.choice([0, 1, 1, 1, 2, 2, 2, 3, 5])
        names = chooser.walk(namespace.world, namespace.table, trail, count, None)
        return before + "/".join(names) or "."
