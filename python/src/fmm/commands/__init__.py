"""The commands of the package. Each module of this folder whose name has no leading underscore is a command.

A command module has

- a docstring whose first line describes the command in at most 80 characters. `./fmm --help` prints this line;
- `main(words)`, which gets the words after the name of the command and returns an exit status (None means 0). It parses them
  with `fmm.commands._parser.Parser`, and may raise any FmmError.
"""
from __future__ import annotations

import ast
import difflib
import importlib
import os
import signal
import sys
from collections.abc import Callable, Sequence
from pathlib import Path
from types import FrameType
from typing import Optional

from .._locks import SIGNALS
from ..errors import FmmError, OptionError, one_line

INTERRUPTED = 130


class Stopped(BaseException):
    """A signal asked the process to end. Output layers remove their temporary files while it passes."""

    def __init__(self, number: int) -> None:
        super().__init__(number)
        self.status = 128 + number


def names() -> list[str]:
    """The names of all commands, in alphabetical order."""
    return sorted(path.stem for path in Path(__file__).parent.glob("*.py") if not path.name.startswith("_"))


def description(name: str) -> str:
    """The first line of the docstring of a command. The module is not imported."""
    text = (Path(__file__).parent / f"{name}.py").read_text(encoding="utf-8")
    return (ast.get_docstring(ast.parse(text)) or "").partition("\n")[0].rstrip(".")


def main(words: Optional[Sequence[str]] = None) -> int:
    """Runs the command that the first word names, and returns the exit status: 0, 1 for wrong input, 2 for wrong options."""
    words = list(sys.argv[1:] if words is None else words)
    if not words:
        say(usage())
        return 2
    name, *rest = words
    if name in ("--help", "-h", "help"):
        print(usage(), end="")
        return 0
    if name == "--version":
        from .._version import __version__
        print(f"fmm {__version__}")
        return 0
    if name not in names():
        close = difflib.get_close_matches(name, names(), 1)
        say(f"fmm: there is no command {name}" + (f"; did you mean {close[0]}?" if close else ""))
        return 2
    return perform(name, rest)


def usage() -> str:
    """The text of --help: each command and its description."""
    lines = [f"  {name:<12} {description(name)}\n" for name in names()]
    return "usage: fmm NAME [ARGUMENT ..]\n\n" + "".join(lines) + "\nfmm NAME --help explains a command.\n"


def perform(name: str, words: Sequence[str]) -> int:
    """Runs a command. Every error that a user can cause becomes one line on standard error."""
    from .._libraries import explained
    _take_closed_descriptors()
    handlers = {number: signal.getsignal(number) for number in SIGNALS}
    for number, handler in handlers.items():
        if handler != signal.SIG_IGN:
            signal.signal(number, interrupt if number == signal.SIGINT else _stop)
    try:
        with explained():
            command: Callable[[list[str]], Optional[int]] = importlib.import_module(f"fmm.commands.{name}").main
            status = command(list(words)) or 0
        sys.stdout.flush()
        return status
    except OptionError as fault:
        return _failed(name, str(fault), 2)
    except FmmError as fault:
        return _failed(name, str(fault), 1)
    except BrokenPipeError:
        _drop_output()
        return _failed(name, "the reader of the output has gone", 1)
    except OSError as fault:
        _drop_output()
        return _failed(name, f"{fault.filename or 'the system'}: {fault.strerror or fault}", 1)
    except MemoryError:
        return _failed(name, "out of memory", 1)
    except KeyboardInterrupt:
        return _failed(name, "interrupted", INTERRUPTED)
    except Stopped as stop:
        return stop.status
    finally:
        for number, handler in handlers.items():
            if signal.getsignal(number) != signal.SIG_IGN:
                signal.signal(number, handler)


def say(text: str) -> None:
    """Writes lines to standard error. A closed or full standard error stops nothing."""
    try:
        print(text.rstrip("\n"), file=sys.stderr, flush=True)
    except (OSError, ValueError, AttributeError):
        pass


def _failed(name: str, text: str, status: int) -> int:
    say(f"fmm {name}: {one_line(text)}")
    return status


def interrupt(number: int, frame: Optional[FrameType]) -> None:
    """Handles a signal by ending the command in order. Further signals are ignored, since they would break that off."""
    _ignore_signals()
    raise KeyboardInterrupt


def _stop(number: int, frame: Optional[FrameType]) -> None:
    _ignore_signals()
    raise Stopped(number)


def _ignore_signals() -> None:
    for number in SIGNALS:
        signal.signal(number, signal.SIG_IGN)


def _take_closed_descriptors() -> None:
    """Opens standard input, output and error if they are closed, so that no file gets their numbers. Reading the one and writing
    the others stays an error."""
    for descriptor, mode in ((0, os.O_WRONLY), (1, os.O_RDONLY), (2, os.O_RDONLY)):
        try:
            os.fstat(descriptor)
        except OSError:
            os.open(os.devnull, mode)  # takes the smallest number that is free


def _drop_output() -> None:
    """Leaves nothing to be written to standard output at exit."""
    try:
        os.dup2(os.open(os.devnull, os.O_WRONLY), 1)
    except OSError:
        pass
