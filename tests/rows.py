"""What files of rows hold: texts, and rows over them, as `crates/tests_rows` says it of standard input."""

import re
from typing import Iterator

ESCAPE = re.compile(rb"\\(n|t|r|\\|x[0-9a-f]{2})")
LETTERS = {b"n": b"\n", b"t": b"\t", b"r": b"\r", b"\\": b"\\"}


def unescaped(part: bytes) -> bytes:
    """The bytes that a part stands for."""
    return ESCAPE.sub(lambda found: LETTERS.get(found[1]) or bytes([int(found[1][1:], 16)]), part)


def exchanged(text: bytes, parts: list[bytes]) -> bytes:
    """The text in which each first part stands as the second."""
    for old, new in zip(parts[::2], parts[1::2], strict=True):
        before, found, after = text.partition(unescaped(old))
        if not found:
            raise ValueError(f"a text lacks {old!r}")
        text = before + unescaped(new) + after
    return text


class Row:
    """The words of a row behind its command and the name of its text, and that text."""

    def __init__(self, line: bytes, texts: dict[str, bytes]) -> None:
        front, *parts = line.split(b"`")
        self.command, name, *self.words = front.decode().split()
        if name == "=":
            self.text = unescaped(parts[0]) if parts else b""
        else:
            self.text = exchanged(texts[name], parts)


def rows_of(lines: list[bytes]) -> Iterator[tuple[bytes, dict[str, bytes]]]:
    """Each line that is no text's, with the texts that stand before it."""
    texts, name = {}, None
    for line in lines:
        if name is not None and line == b"end":
            name = None
        elif name is not None:
            texts[name] += line + b"\n"
        elif line.startswith(b"text "):
            name = line[5:].decode()
            texts[name] = b""
        else:
            yield line, texts
