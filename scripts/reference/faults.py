"""The faults of requests, of the operations of a namespace file, and of inputs."""

from __future__ import annotations

from enum import Enum


class Fault(Enum):
    """Why a request is refused, with the text of its reply."""

    MALFORMED = "malformed message"
    VERSION_NOT_SET = "version not set"
    SMALL_MSIZE = "msize too small"
    NO_AUTHENTICATION = "authentication not required"
    UNKNOWN_USER = "unknown user"
    UNKNOWN_ATTACH_NAME = "unknown attach name"
    UNKNOWN_FID = "unknown fid"
    FID_IN_USE = "fid in use"
    FID_OPEN = "fid already open"
    FID_NOT_OPEN = "fid not open for this"
    NOT_DIRECTORY = "not a directory"
    NOT_FOUND = "file does not exist"
    PERMISSION_DENIED = "permission denied"
    PHASE_ERROR = "phase error"
    BAD_OPEN_MODE = "bad open mode"
    IS_DIRECTORY = "is a directory"
    EXCLUSIVE_USE = "exclusive use file already open"
    BAD_FILE_NAME = "bad file name"
    FILE_EXISTS = "file already exists"
    CREATION_FORBIDDEN = "mounted directory forbids creation"
    BAD_DIRECTORY_OFFSET = "bad directory offset"
    SMALL_READ_COUNT = "read count too small"
    FILE_TOO_LARGE = "file too large"
    NOT_EMPTY = "directory not empty"
    IS_ROOT = "root can't be removed or renamed"
    FIXED_FIELD = "wstat of a fixed field"
    TOO_MANY_FIDS = "too many fids"
    QIDS_USED_UP = "qid numbers used up"
    OUT_OF_MEMORY = "out of memory"
    PATH_TOO_DEEP = "path too deep"


class OperationFault(Enum):
    """Why an operation of a namespace file is skipped, beside the faults of a walk."""

    UNKNOWN_SERVER = "unknown server"
    INCONSISTENT_MOUNT = "inconsistent mount"
    SPEC_NOT_OFFERED = "spec not offered"
    NOT_OFFERED = "not offered"
    NOT_MOUNTED = "not mounted"
    NOT_IN_UNION = "not in the union"
    NESTED_TOO_DEEP = "nested too deep"
    BAD_INCLUDED_FILE = "bad included file"


class LineFault(Enum):
    """What is wrong with a line of a section."""

    UNKNOWN_WORD = "unknown word"
    WORD_COUNT = "wrong number of words"
    BAD_FLAG = "bad flag"
    BAD_NAME = "bad name"
    BAD_PATH = "bad path"
    BAD_MODE = "bad mode"
    BAD_USER = "bad user"
    BAD_HEX = "bad hex"
    BAD_LINE = "bad line"
    BAD_SECTION = "bad section"
    FILE_TOO_LARGE = "file too large"
    NO_SERVER = "no server"
    NO_SUCH_DIRECTORY = "no such directory"
    ALREADY_THERE = "already there"
    TOO_MANY = "too many"


class Refused(Exception):
    """A request or an operation that is refused."""

    def __init__(self, fault: Fault | OperationFault) -> None:
        super().__init__(fault.value)
        self.fault = fault


class BadLine(Exception):
    """A line that is not in order."""

    def __init__(self, fault: LineFault, line: int = 0) -> None:
        super().__init__(fault.value)
        self.fault = fault
        self.line = line

    def stopped(self, section: str) -> Stopped:
        """How the program ends with this line of a section."""
        return Stopped(f"{section}:{self.line}: {self.fault.value}")


class Stopped(Exception):
    """An end of the program, with a line on standard error."""

    def __init__(self, line: str, status: int = 1) -> None:
        super().__init__(line)
        self.line = line
        self.status = status
