"""Words of scripts as a terminal can show them, and as one speaks of them."""
import difflib
import functools
import re
import shutil
import sys
import textwrap
import typing

# So much of a word is told, and how wide a text is.
LONG = 60
# As wide as a terminal that is narrower, and in a pipe always the same.
WIDE = min(100, shutil.get_terminal_size((100, 24)).columns) if sys.stdout and sys.stdout.isatty() else 100
# A text in lines, in which no word is cut.
filled = functools.partial(textwrap.fill, width=WIDE, break_long_words=False, break_on_hyphens=False)

# What a terminal would obey, and what nobody sees or that turns the order of what stands beside it.
OBEYED = re.compile("[\x00-\x1f\x7f-\x9f\u061c\u200b-\u200f\u2028-\u202e\u2066-\u2069\ufeff]")


def escaped(found: re.Match[str]) -> str:
    return f"\\x{ord(found[0]):02x}"


def plain(text: str) -> str:
    """Bytes of a script as a terminal can show them."""
    return OBEYED.sub(escaped, text.encode("latin1", "replace").decode("utf-8", "backslashreplace"))


def safe(text: str) -> str:
    """Lines of a text as a terminal or a picture can show them: line feeds and tabs stay."""
    return OBEYED.sub(lambda found: found[0] if found[0] in "\n\t" else escaped(found), text)


class Terminal:
    """A stream to which bytes are written as a terminal can show them."""

    def __init__(self, out: typing.BinaryIO) -> None:
        self.out = out

    def write(self, text: bytes) -> int:
        return self.out.write(safe(text.decode("utf-8", "backslashreplace")).encode())

    def writelines(self, texts: typing.Iterable[bytes]) -> None:
        for text in texts:
            self.write(text)


def short(text: str) -> str:
    """The beginning of a long word."""
    return plain(text) if len(text) <= LONG else f"{plain(text[:LONG])}.."


def quoted(text: str) -> str:
    return f"'{short(text)}'"


def sentence(text: str) -> str:
    return f"{text[0].upper()}{text[1:]}."


def either(words: typing.Iterable[str], link: str = "or") -> str:
    """Words as one speaks of them: 'a', 'b' or 'c'."""
    words = list(words)
    return f" {link} ".join(filter(None, [", ".join(words[:-1]), words[-1]]))


def nearest(word: str, known: typing.Iterable[str]) -> list[str]:
    """The known words like this one, the likest first."""
    return difflib.get_close_matches(word.lower(), list(known), 3, 0.5)


def letters(digit: int) -> str:
    """The permissions that an octal digit says."""
    return "".join(letter if digit & bit else "-" for letter, bit in (("r", 4), ("w", 2), ("x", 1)))
