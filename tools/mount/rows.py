"""What the session has of a path: its row, and its bytes. Neither says who may do what."""
from typing import NamedTuple

from mount import lists

# The most bytes of a file.
LONGEST = 65_536


class Row(NamedTuple):
    """A file or a folder: its number, which it keeps, its owner and group, lists, votes and size."""

    is_folder: bool
    number: int
    owner: int
    group: int
    lists: lists.Lists
    votes: str
    size: int


def row_of(told: list[str]) -> Row | None:
    """The row that a line `row PATH` tells; none where there is nothing."""
    words = told[0].split(" ") if told else []
    if len(words) < 4 or words[0] != "row":
        return None
    pairs = dict(zip(words[3::2], words[4::2]))
    return Row(
        words[2] == "folder", int(pairs["suite"]), int(pairs["owner"]), int(pairs["group"]), lists.read(pairs["acl"]),
        pairs["votes"], int(pairs["size"]),
    )


def bytes_of(word: str) -> bytes:
    """Bytes as the session tells them."""
    return b"" if word == "-" else bytes.fromhex(word)


def hex_of(data: bytes | bytearray) -> str:
    """Bytes as the session takes them."""
    return data.hex() or "-"


def content_of(told: list[str]) -> bytes | None:
    """The bytes that a line `content PATH` tells; none where there is no file."""
    words = told[0].split(" ") if told else []
    if len(words) != 3 or words[0] != "content" or words[2] == "nothing":
        return None
    return bytes_of(words[2])
