"""Worked cases: inputs with what the program must write for them."""

from __future__ import annotations

from dataclasses import dataclass

from reference.program import SMALL_WORLD, Outcome

# Stands for the text glenda, with its length.
GLENDA = "0600 676c656e6461"

TWO_UNIONS = """server main
dir / 755 sys sys
dir /u 755 glenda glenda
file /u/n 644 glenda glenda 75
dir /x 755 glenda glenda
file /x/n 644 glenda glenda 78
user glenda
"""
DEEP = """server main
dir / 755 sys sys
dir /deep 755 sys sys
dir /deep/d 755 sys sys
dir /m 755 sys sys
user glenda
"""
VAULT = """server main
dir / 755 sys sys
dir /pub 777 sys sys
dir /vault 000 sys sys
file /vault/key 600 sys sys 01
user glenda
hide main /vault
"""
COVERED_VAULT = """server main
dir / 777 sys sys
dir /empty 755 sys sys
dir /vault 777 sys sys
file /vault/key 666 sys sys 01
user glenda
hide main /vault
%% ns
bind /empty /vault
"""
BOUND_INSIDE = """server main
dir / 755 sys sys
dir /u 755 sys sys
dir /vault 000 sys sys
dir /vault/in 755 sys sys
user glenda
hide main /vault
%% ns
bind -a /vault/in /u
"""
HOME = """server main
dir / 755 sys sys
dir /usr 755 sys sys
dir /usr/glenda 755 glenda glenda
dir /usr/glenda/tmp 755 glenda glenda
dir /tmp 777 sys sys
user glenda
set home /usr/glenda
"""
NAMESPACE = "%% ns\n# temporary\nbind -c $home/tmp /tmp\nbind /none /tmp\n"
BEHIND = "%% ns\nbind -a /u /x\n"
CREATING = "%% ns\nbind -ac /u /x\n"
YES = "cert 1\ndir 0 0\ndir 0 1\n"
ROW = "gap row"


@dataclass(frozen=True)
class Case:
    """An input of a command, with what the program must write and its status."""

    name: str
    command: str
    data: bytes
    wanted: Outcome


def case(name: str, command: str, text: str, output: str, errors: str = "", status: int = 0) -> Case:
    """A case that is written as texts. An input that doesn't begin with a section begins with a world."""
    data = text if not text or text.startswith("%%") else f"%% world\n{text}"
    return Case(name, command, data.encode(), Outcome(output.encode(), errors.encode(), status))


def exchange(name: str, text: str, frames: str) -> Case:
    """A play of requests, each behind '>', with their replies, each behind '<'."""
    bare = "".join(frames.replace("glenda", GLENDA).split())
    lines = bare.replace("<", "\n<").replace(">", "\n>").split()
    requests = [line[1:] for line in lines if line.startswith(">")]
    replies = [line[1:] + "\n" for line in lines if line.startswith("<")]
    script = "".join(f"msg 1 0 {request}\n" for request in requests)
    return case(name, "play", f"{text}%% script\nopen 1\n{script}", "".join(replies))


VERSION = """
> 13000000 64 ffff 00200000 0600 395032303030
< 13000000 65 ffff 00200000 0600 395032303030
"""
BEGIN = f"""{VERSION}
> 19000000 68 0100 00000000 ffffffff 0600 676c656e6461 0000
< 14000000 69 0100 80 00000000 0000000000000000
"""
# What a frame that is no message is answered, for a tag in between.
MALFORMED = ("< 1a000000 6b", "1100 6d616c666f726d6564206d657373616765")
CLUNK = """
> 0b000000 78 0100 00000000
< 07000000 79 0100
"""

VERSIONS = f"""
> 13000000 64 ffff 00200000 0600 395033303030
< 14000000 65 ffff 00200000 0700 756e6b6e6f776e
> 19000000 68 0100 00000000 ffffffff 0600 676c656e6461 0000
< 18000000 6b 0100 0f00 76657273696f6e206e6f7420736574
> 15000000 64 ffff 00200000 0800 3950323030302e75
< 13000000 65 ffff 00200000 0600 395032303030
"""
MSIZES = """
> 13000000 64 ffff ff010000 0600 395032303030
< 18000000 6b ffff 0f00 6d73697a6520746f6f20736d616c6c
> 13000000 64 ffff 00020000 0600 395032303030
< 13000000 65 ffff 00020000 0600 395032303030
> 13000000 64 ffff ffffffff 0600 395032303030
< 13000000 65 ffff 00001000 0600 395032303030
"""
CLUNKS = f"""{BEGIN}
> 0b000000 78 0100 05000000
< 14000000 6b 0100 0b00 756e6b6e6f776e20666964
{CLUNK}"""
WALKS = f"""{BEGIN}
> 11000000 6e 0200 00000000 01000000 0000
< 09000000 6f 0200 0000
> 51000000 6e 0300 00000000 02000000 1000 {"0200 2e2e" * 16}
< d9000000 6f 0300 1000 {"80 00000000 0000000000000000" * 16}
> 55000000 6e 0400 00000000 03000000 1100 {"0200 2e2e" * 17}
{MALFORMED[0]} 0400 {MALFORMED[1]}
> 1d000000 6e 0500 00000000 09000000 0300 0100 61 0100 62 0400 6e6f6e65
< 23000000 6f 0500 0200 80 00000000 0100000000000000 80 00000000 0200000000000000
> 0b000000 7c 0600 09000000
< 14000000 6b 0600 0b00 756e6b6e6f776e20666964
"""
OPEN_READ = f"""{BEGIN}
> 17000000 6e 0700 00000000 01000000 0200 0100 61 0100 66
< 23000000 6f 0700 0200 80 00000000 0100000000000000 00 00000000 0300000000000000
> 0b000000 7c 0800 01000000
< 4d000000 7d 0800 4400 4200 0000 00000000 00 00000000 0300000000000000 a4010000
  00000000 00000000 0200000000000000 0100 66 glenda glenda glenda
> 0c000000 70 0900 01000000 00
< 18000000 71 0900 00 00000000 0300000000000000 e81f0000
> 17000000 74 0a00 01000000 0000000000000000 64000000
< 0d000000 75 0a00 02000000 6869
"""
FIRST_N = """4200 0000 00000000 00 00000000 0200000000000000 a4010000
  00000000 00000000 0100000000000000 0100 6e glenda glenda glenda"""
SECOND_N = FIRST_N.replace("0200000000000000 a4010000", "0400000000000000 a4010000")
OPEN_UNION = f"""{BEGIN}
> 17000000 6e 0200 00000000 01000000 0200 0100 78 0100 6e
< 23000000 6f 0200 0200 80 00000000 0300000000000000 00 00000000 0400000000000000
> 14000000 6e 0300 00000000 02000000 0100 0100 78
< 16000000 6f 0300 0100 80 00000000 0300000000000000
> 0c000000 70 0400 02000000 00
< 18000000 71 0400 80 00000000 0300000000000000 e81f0000
"""
LISTING = f"""{OPEN_UNION}
> 17000000 74 0500 02000000 0000000000000000 00040000
< 93000000 75 0500 88000000 {SECOND_N} {FIRST_N}
"""
LISTING_READS = f"""{OPEN_UNION}
> 17000000 74 0700 02000000 0000000000000000 43000000
< 1d000000 6b 0700 1400 7265616420636f756e7420746f6f20736d616c6c
> 17000000 74 0800 02000000 0100000000000000 00040000
< 1d000000 6b 0800 1400 626164206469726563746f7279206f6666736574
> 17000000 74 0900 02000000 0000000000000000 44000000
< 4f000000 75 0900 44000000 {SECOND_N}
> 17000000 74 0a00 02000000 4400000000000000 44000000
< 4f000000 75 0a00 44000000 {FIRST_N}
> 17000000 74 0b00 02000000 8800000000000000 44000000
< 0b000000 75 0b00 00000000
"""
WALK_TO_UNION = f"""{BEGIN}
> 14000000 6e 0300 00000000 03000000 0100 0100 78
< 16000000 6f 0300 0100 80 00000000 0300000000000000
> 15000000 72 0600 03000000 0300 6e6577 a4010000 01
"""
FORBIDDEN = f"""{WALK_TO_UNION}
< 2b000000 6b 0600 2200 6d6f756e746564206469726563746f727920666f7262696473206372656174696f6e
"""
CREATED = f"""{WALK_TO_UNION}
< 18000000 73 0600 00 00000000 0500000000000000 e81f0000
> 19000000 6e 0200 00000000 04000000 0200 0100 75 0300 6e6577
< 23000000 6f 0200 0200 80 01000000 0100000000000000 00 00000000 0500000000000000
"""
DOT_DOT = f"""{BEGIN}
> 18000000 6e 0200 00000000 01000000 0200 0100 6d 0200 2e2e
< 23000000 6f 0200 0200 80 00000000 0200000000000000 80 00000000 0000000000000000
"""
AUTH_AND_FLUSH = f"""{BEGIN}
> 15000000 66 0200 03000000 0600 676c656e6461 0000
< 24000000 6b 0200 1b00 61757468656e7469636174696f6e206e6f74207265717569726564
> 09000000 6c 0300 0100
< 07000000 6d 0300
"""
ATTACH_NAME = f"""{VERSION}
> 22000000 68 0100 00000000 ffffffff 0600 676c656e6461 0900 2f612f2e2f622f2e2e
< 14000000 69 0100 80 00000000 0100000000000000
"""
# Frames that are no message, each with its tag.
BAD_FRAMES = [
    ("07000000 64 ffff", "ffff"),
    ("07000000 6a 0500", "0500"),
    ("14000000 6e 0600 00000000 01000000 0100 0100 00", "0600"),
    ("14000000 6e 0700 00000000 01000000 0100 0100 ff", "0700"),
    ("0c000000 78 0800 00000000 00", "0800"),
    ("18000000 76 0900 00000000 0000000000000000 02000000 61", "0900"),
]
BAD_EXCHANGES = [f"{BEGIN}> {data}\n{MALFORMED[0]} {tag} {MALFORMED[1]}\n{CLUNK}" for data, tag in BAD_FRAMES]

PLAYS = [
    exchange("versions", SMALL_WORLD, VERSIONS),
    exchange("msizes", SMALL_WORLD, MSIZES),
    exchange("clunks", SMALL_WORLD, CLUNKS),
    exchange("walks", SMALL_WORLD, WALKS),
    exchange("open and read", SMALL_WORLD, OPEN_READ),
    exchange("a listing of a union", TWO_UNIONS + BEHIND, LISTING),
    exchange("a listing in pieces", TWO_UNIONS + BEHIND, LISTING_READS),
    exchange("a create that is forbidden", TWO_UNIONS + BEHIND, FORBIDDEN),
    exchange("a create in a union", TWO_UNIONS + CREATING, CREATED),
    exchange("dot-dot", DEEP + "%% ns\nbind /deep/d /m\n", DOT_DOT),
    exchange("auth and flush", SMALL_WORLD, AUTH_AND_FLUSH),
    exchange("an attach name", SMALL_WORLD, ATTACH_NAME),
    *(exchange(f"bad frame {tag}", SMALL_WORLD, it) for it, (_, tag) in zip(BAD_EXCHANGES, BAD_FRAMES)),
    case("nothing", "play", "", ""),
]


def vault(old: str, new: str) -> str:
    """The world with a vault, with another text in it."""
    return VAULT.replace(old, new)


def no(kind: str) -> str:
    """What the judge says of the vault."""
    return f"no\nstep 0 0 glenda vault\nbreach {kind} 0 2\n"


BARE_VAULT = "/vault 000 sys sys"
LED = "group staff sys glenda\n"
JUDGED = [
    case("a vault", "check", VAULT, f"yes\n{YES}"),
    case("an owned vault", "check", vault(BARE_VAULT, "/vault 000 glenda glenda"), no("owned"), status=1),
    case("a removable vault", "check", vault("/ 755 sys", "/ 777 sys"), no("removable"), status=1),
    case("a covered vault", "check", COVERED_VAULT, f"yes\n{YES}"),
    case("bound inside", "check", BOUND_INSIDE, "no\nstep 0 0 glenda u\nbreach inside 0 3\n", status=1),
    case("open by a group", "check", vault(BARE_VAULT, "/vault 070 sys staff") + LED, no("open"), status=1),
    case(
        "owned by a group",
        "check",
        vault(BARE_VAULT, "/vault 000 sys staff") + "group staff glenda\n",
        no("owned"),
        status=1,
    ),
    case(
        "removable by a group",
        "check",
        vault("/ 755 sys sys", "/ 775 sys staff") + LED,
        no("removable"),
        status=1,
    ),
    case("a member of no right", "check", vault(BARE_VAULT, "/vault 000 sys staff") + LED, f"yes\n{YES}"),
    case("a bad group", "check", VAULT + "group staff\n", "", "world:8: wrong number of words\n", 1),
]


def verified(name: str, rows: str, output: str) -> Case:
    """A certificate of the world with a vault."""
    return case(name, "verify", f"{VAULT}%% cert\n{rows}", output, status=0 if output == "ok\n" else 1)


VERIFIED = [
    verified("a certificate", YES, "ok\n"),
    verified("a row too few", "cert 1\ndir 0 0\n", f"{ROW} 1 child 0 1 member 0 1 missing\n"),
    verified("a hidden row", f"{YES}dir 0 2\n", f"{ROW} 3 hidden\n"),
    verified("no row", "cert 1\n", "gap root member 0 0 missing\n"),
    case("no first line", "verify", f"{VAULT}%% cert\n", "", "cert:1: bad line\n", 1),
    case("no certificate", "verify", VAULT, "", "cert: missing\n", 1),
]


def namespace(name: str, text: str, errors: str, output: str = "", status: int = 0) -> Case:
    """A world with a namespace file."""
    return case(name, "ns", text, output, errors, status)


NAMESPACES = [
    namespace("a bad flag", f"{HOME}{NAMESPACE}\nbind -z /usr /tmp\n", "ns:5: bad flag\n", status=1),
    namespace(
        "a variable",
        HOME + NAMESPACE,
        "ns:3: file does not exist\n",
        "bind -c #main/usr/glenda/tmp #main/tmp\n",
    ),
    namespace("a union", TWO_UNIONS + CREATING, "", "bind #main/x #main/x\nbind -ac #main/u #main/x\n"),
    namespace(
        "an unmount",
        f"{HOME}%% ns\ncd /usr\nbind glenda/tmp /tmp\nunmount /tmp\nunmount /tmp",
        "ns:4: not mounted\n",
    ),
    namespace(
        "a file that includes itself",
        f"{SMALL_WORLD}file /ns 644 sys sys 2e202f6e73\n%% ns\n. /ns",
        "ns:1: nested too deep\n",
    ),
    namespace("a spec", f"{SMALL_WORLD}%% ns\nmount main /a spec", "ns:1: spec not offered\n"),
    namespace("a file on a directory", f"{SMALL_WORLD}%% ns\nbind /a/f /a", "ns:1: inconsistent mount\n"),
    namespace("no parent", "server main\ndir /a/b 755 sys sys\n", "world:2: no such directory\n", status=1),
    namespace("a bad mode", "server main\nfile /f la644 sys sys -\n", "world:2: bad mode\n", status=1),
    namespace("no server", "%% world\n", "world:0: no server\n", status=1),
]

CASES = PLAYS + JUDGED + VERIFIED + NAMESPACES
