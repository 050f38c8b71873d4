"""Names and values as text, as the page of monitoring has them."""
from __future__ import annotations


def as_text(text: bytes) -> str:
    """Returns bytes as text: what is not UTF-8 is written as \\xff, and a backslash as two."""
    return text.replace(b"\\", b"\\\\").decode("utf-8", "backslashreplace")


def on_one_line(text: bytes) -> str:
    """Returns the same with each mark that is not printing as an escape, so that a terminal shows it."""
    return "".join(mark if mark.isprintable() else mark.encode("unicode_escape").decode("ascii") for mark in as_text(text))
