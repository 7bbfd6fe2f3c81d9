"""Random worlds, as text."""

from __future__ import annotations

from reference.choices import GROUPS, NAMES, USERS, Chooser, Entry, Known
from reference.random_namespace import NamespaceLines

ODD_NAMES = ["é", "a$b", "#h", "-q", "y" * 255, "z" * 100, "a\rb", "...", "%%", "日本"]
OPEN_MODES = ["777", "755", "775"]
MODES = "755 777 777 775 700 770 750 711 000 733 744 555 070 007 100 001 010 644 666 600 640 060 400".split()
FILE_KINDS = {"": 70, "a": 12, "l": 12, "t": 3, "al": 3, "alt": 1, "lt": 1}
VARIABLES = ["home", "user", "e", "sp", "q", "mid"]
VALUES = ["glenda", "/", "..", "$home", "-a", "#main", ".", "a", "a/b"]

# The kinds of the words behind each first word.
LINES = {
    "server": ["server"],
    "dir": ["path", "mode", "user", "user"],
    "file": ["path", "mode", "user", "user", "data"],
    "user": ["user"],
    "group": ["user", "user", "user", "user"],
    "hide": ["server", "path"],
    "set": ["variable", "variable"],
    "Server": ["server"],
}
ODD_WORDS = {
    "server": ["a/b", "a#", "a$", "a\0", "n" * 63, "n" * 64, "é" * 32, "é" * 31, "..", "%%", "-a"],
    "path": ["/nope/k", "k", "/" + "k" * 256, "/", "/k\0", "/..", "//./", "/" + "é" * 127, "/" + "é" * 128],
    "mode": "75 7555 789 a644 l600 al644 la644 alt777 aa644 at644 ta644 lt644 ٣44 al6444 a +75".split(),
    "user": ["u" * 64, "u" * 63, "a\0", "é" * 32, "é" * 31, "/", "#", "a\r"],
    "data": ["0", "zz", "00g0", "+1", "--", "0x", "é"],
    "variable": ["a/b", "$", "a$b", "é", "v\0", "k" * 300, "#"],
}


class WorldMaker:
    """Makes the lines of a world. In a guarded one a certificate can mostly be accepted."""

    def __init__(self, chooser: Chooser, known: Known, is_guarded: bool) -> None:
        self.chooser = chooser
        self.known = known
        self.is_guarded = is_guarded
        self.hides = is_guarded or chooser.chance(0.25)
        self.is_open = chooser.chance(0.65)
        # Whether anybody may do nearly anything, so that much is changed.
        self.is_free = not is_guarded and chooser.chance(0.3)

    def lines(self, is_faulty: bool) -> list[str]:
        """The lines of a world."""
        chooser = self.chooser
        known = self.known
        users = USERS[:-1] if self.is_guarded and chooser.chance(0.85) else USERS
        known.users = chooser.sample(users, chooser.weighted({0: 2, 1: 25, 2: 40, 3: 33}))
        known.groups = chooser.sample(GROUPS, chooser.randint(0, 3))
        known.servers = chooser.sample(["main", "fs", "aux", "m", "os", "é"], chooser.choice([1, 1, 2, 2, 3]))
        known.variables = chooser.sample(VARIABLES, chooser.randint(0, 4))
        lines = [line for name in known.servers for line in self.server(name)]
        more = [f"user {user}" for user in known.users]
        more += [f"group {group} {self.owner()} {self.members()}" for group in known.groups]
        more += [f"set {name} {chooser.choice([*VALUES, *self.paths()])}" for name in known.variables]
        more += [f"hide {entry.server} {entry.path}" for entry in known.hidden]
        chooser.shuffle(more)
        lines += more
        if chooser.chance(0.15):
            chooser.put_in(lines, chooser.choice(["# c", "", "  \t", "\t# x"]))
        if chooser.chance(0.6 if is_faulty else 0.01):
            self.damage(lines)
        return lines if not is_faulty or chooser.chance(0.98) else more

    def owner(self) -> str:
        return self.chooser.choice(self.known.users * 3 + ["sys", "glenda", "rob", "none"])

    def group(self) -> str:
        return self.chooser.choice(self.known.users * 2 + self.known.groups * 3 + ["sys", "none", "staff"])

    def members(self) -> str:
        return " ".join(self.chooser.sample([*USERS, "none", "staff"], self.chooser.randint(0, 3)))

    def paths(self) -> list[str]:
        """The paths of all entries, at least one."""
        return [entry.path for entry in self.known.entries] or ["/a"]

    def server(self, name: str) -> list[str]:
        """The lines of a server."""
        chooser = self.chooser
        lines = [f"server {name}"]
        if chooser.chance(0.75):
            lines.append(self.directory_line(Entry(name, "/", True)))
        folders = [""]
        taken = set()
        for _ in range(chooser.randint(3, 12)):
            parent = chooser.choice(folders if chooser.chance(0.6) else folders[-3:])
            path = f"{parent}/{chooser.choice(NAMES if chooser.chance(0.94) else ODD_NAMES)}"
            entry = Entry(name, path, chooser.chance(0.62))
            if path in taken:
                continue
            lines.append(self.directory_line(entry) if entry.is_directory else self.file_line(entry))
            folders += [path] * entry.is_directory
            taken.add(path)
            self.known.entries.append(entry)
        return lines

    def mode(self) -> str:
        if self.is_free:
            return "777" if self.chooser.chance(0.9) else "555"
        return self.chooser.choice(OPEN_MODES if self.is_open and self.chooser.chance(0.7) else MODES)

    def directory_line(self, entry: Entry) -> str:
        """The line of a directory, which may be hidden."""
        chooser = self.chooser
        is_root = entry.path == "/"
        words = f"{self.mode()} {self.owner()} {self.group()}"
        if self.hides and chooser.chance(0.05 if is_root else 0.22):
            self.known.hidden.append(entry)
            if chooser.chance(0.85):
                words = f"{chooser.choice(['000', '000', '000', '700', '770', '777'])} sys sys"
        elif is_root and self.is_guarded and chooser.chance(0.85):
            words = f"{chooser.choice(['755', '755', '775', '711'])} sys sys"
        return f"dir {self.written(entry.path)} {words}"

    def file_line(self, entry: Entry) -> str:
        """The line of a file: no bytes, any bytes, or lines of a namespace file, which may include itself."""
        chooser = self.chooser
        maker = NamespaceLines(chooser, self.known)
        lines = [maker.line() for _ in range(chooser.randint(1, 4))]
        if chooser.chance(0.3):
            lines.append(f". #{entry.server}{entry.path}")
        odd = chooser.randbytes(chooser.choice([1, 2, 3, 5, 20, 600]))
        data = chooser.weighted({b"": 25, odd: 40, "\n".join(lines).encode(): 40, b"\xff\n": 2})
        digits = data.hex().upper() if chooser.chance(0.1) else data.hex()
        words = f"{chooser.weighted(FILE_KINDS)}{self.mode()} {self.owner()} {self.group()} {digits or '-'}"
        return f"file {self.written(entry.path)} {words}"

    def written(self, path: str) -> str:
        """A path, perhaps in a longer form."""
        forms = [f"/{path}", f"{path}/", f"/.{path}", f"/../{path}", f"{path}/zz/.."]
        return self.chooser.choice(forms) if self.chooser.chance(0.08) else path

    def damage(self, lines: list[str]) -> None:
        """Puts lines between others each of whose words is right or wrong by itself."""
        chooser = self.chooser
        for _ in range(chooser.choice([1, 1, 2, 5])):
            word = chooser.choice([*LINES, "dir", "file"])
            words = [word, *(self.odd_word(kind) for kind in LINES[word])]
            if chooser.chance(0.12):
                words = chooser.choice([words[:-1], [*words, "sys"]])
            again = chooser.choice(lines)
            chooser.put_in(lines, again if chooser.chance(0.15) else chooser.choice([" ", "\t"]).join(words))

    def odd_word(self, kind: str) -> str:
        """A word of a kind, which is right more often than not."""
        chooser = self.chooser
        known = self.known
        path = chooser.choice(self.paths())
        usual = {
            "server": [*known.servers, *known.servers, "new"],
            "path": ["/k", f"{path}/k", f"{path}/k", path],
            "mode": ["755", "000", "644"],
            "user": ["sys", "glenda", *known.users, *known.groups],
            "data": ["-", "6869", "aBcD"],
            "variable": ["v", "w", *known.variables],
        }
        return chooser.choice(ODD_WORDS[kind] if chooser.chance(0.15) else usual[kind])
