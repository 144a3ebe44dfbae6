"""The exceptions of this package. The text of each is one line that says what is wrong, and where."""
from __future__ import annotations

import difflib
import os
from typing import Iterable, Optional, Union

PathText = Union[str, "os.PathLike[str]"]


def one_line(text: object) -> str:
    """The text in one line: line breaks become spaces, other control characters and lone surrogates their escapes."""
    words = " ".join(str(text).split())
    return "".join(c if c.isprintable() else c.encode("unicode_escape", "surrogatepass").decode() for c in words)


def shown(text: object, most: int = 60) -> str:
    """At most `most` characters of a value of the input, for a message."""
    line = one_line(text)
    return line if len(line) <= most else line[:most - 2] + ".."


class FmmError(Exception):
    """The parent of all exceptions of this package."""

    def __init__(self, message: object) -> None:
        super().__init__(one_line(message))


class InputError(FmmError):
    """Wrong input. The text begins with the path, the line and the column, as far as they are known."""

    def __init__(self, message: object, path: Optional[PathText] = None, line: Optional[int] = None,
                 column: Optional[str] = None) -> None:
        self.path, self.line, self.column = None if path is None else os.fspath(path), line, column
        where = [] if self.path is None else [self.path]
        where += [] if line is None else [f"line {line}"]
        where += [] if column is None else [f"column {shown(column)}"]
        super().__init__(f"{' '.join(where)}: {message}" if where else message)


class MismatchError(InputError):
    """Two things that do not belong together, such as a match and another network. The text names both."""


class OptionError(FmmError):
    """An option that does not exist, or a value out of its range."""

    @classmethod
    def unknown(cls, name: str, known: Iterable[str], what: str = "option") -> OptionError:
        """For a name that is none of `known`, with the most similar known name."""
        close = difflib.get_close_matches(name, list(known), 1)
        hint = f"; did you mean {close[0]}?" if close else f"; known: {', '.join(known)}"
        return cls(f"{shown(name)} is no {what}{hint}")


class OutputError(FmmError):
    """A file that cannot be written. The text names the file and the reason."""


class ProgramError(FmmError):
    """A matching program ended with another status than 0. `status` is negative for a signal, as in subprocess."""

    def __init__(self, status: int, message: str) -> None:
        self.status, self.message = status, message
        super().__init__(message)


class MissingLibraryError(FmmError):
    """A library is not installed. The text names the Debian packages to install."""


class FmmWarning(UserWarning):
    """Something to look at that is no error. The report says it too."""
