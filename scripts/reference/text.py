"""Lines, words, numbers, names and paths."""

from __future__ import annotations

from collections.abc import Iterator

NAME_MAX = 255
USER_MAX = 63
# No number has so many digits behind its leading zeros.
DIGITS_MAX = 30


def lines_of(text: str) -> list[str]:
    """A text cut at its newlines, without what is behind the last one where that is nothing."""
    lines = text.split("\n")
    if lines[-1] == "":
        lines.pop()
    return lines


def words_of(line: str) -> list[str]:
    """The words of a line. Only spaces and tabs are between them."""
    return [word for word in line.replace("\t", " ").split(" ") if word]


def numbered_words(lines: list[str]) -> Iterator[tuple[int, list[str]]]:
    """The number and the words of each line that is neither empty nor a comment."""
    for number, line in enumerate(lines, 1):
        words = words_of(line)
        if words and not words[0].startswith("#"):
            yield number, words


def number_of(word: str, limit: int) -> int | None:
    """The decimal number below a limit that a word writes."""
    if not word or any(char not in "0123456789" for char in word):
        return None
    digits = word.lstrip("0") or "0"
    if len(digits) > DIGITS_MAX or int(digits) >= limit:
        return None
    return int(digits)


def bytes_of_hex(word: str) -> bytes | None:
    """The bytes that a word writes in hexadecimal digits of either case."""
    if len(word) % 2 or any(char not in "0123456789abcdefABCDEF" for char in word):
        return None
    return bytes.fromhex(word)


def is_name(text: str) -> bool:
    """Whether a file may have this name."""
    if text in (".", "..") or "/" in text or "\0" in text:
        return False
    return 1 <= len(text.encode()) <= NAME_MAX


def is_user(text: str) -> bool:
    """Whether a user or a group may have this name."""
    return 1 <= len(text.encode()) <= USER_MAX and "\0" not in text


def cleaned(path: str) -> str:
    """The shortest path of the same meaning, found from the text alone."""
    rooted = path.startswith("/")
    names: list[str] = []
    for name in path.split("/"):
        if name in ("", "."):
            continue
        if name != "..":
            names.append(name)
        elif names and names[-1] != "..":
            names.pop()
        elif not rooted:
            names.append("..")
    if rooted:
        return "/" + "/".join(names)
    return "/".join(names) or "."


def names_of(path: str) -> list[str]:
    """The names of a path, which is cleaned first."""
    short = cleaned(path)
    if short in ("/", "."):
        return []
    return short.lstrip("/").split("/")
