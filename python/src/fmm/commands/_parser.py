"""The parser of the words of a command."""
from __future__ import annotations

import argparse
import re
from typing import NoReturn

from ..errors import OptionError


class Parser(argparse.ArgumentParser):
    """Options of a command. `--help` prints the docstring of its module after the usage; a fault is an OptionError.

    Options may not be shortened. An unknown option is answered with the nearest one that there is.
    """

    def __init__(self, name: str, text: str) -> None:
        super().__init__(prog=f"fmm {name}", description=text.strip(), allow_abbrev=False,
                         formatter_class=argparse.RawDescriptionHelpFormatter)

    def error(self, message: str) -> NoReturn:
        unknown = re.match(r"unrecognized arguments: (--[^\s=]+)", message)
        if unknown:
            raise OptionError.unknown(unknown[1], [option for option in self._option_string_actions if option.startswith("--")])
        raise OptionError(f"{message} (--help shows the options)")


def above_zero(word: str) -> int:
    """The value of an option that counts something."""
    if not (word.isascii() and word.isdecimal() and 0 < int(word) < 10 ** 9):
        raise argparse.ArgumentTypeError(f"{word} is no number above 0")
    return int(word)
