"""The texts of errors."""
from __future__ import annotations

from fmm.errors import InputError, MismatchError, OptionError


def test_an_error_is_one_line_that_names_the_place() -> None:
    fault = InputError("a\nb \x1b[31m", "t.csv", 7, "spe\red")
    assert str(fault) == "t.csv line 7 column spe ed: a b \\x1b[31m"
    assert (fault.path, fault.line, fault.column) == ("t.csv", 7, "spe\red")
    assert str(InputError("is empty", "t.csv")) == "t.csv: is empty" and str(MismatchError("two")) == "two"
    assert str(InputError("\udcff")) == "\\udcff"


def test_an_unknown_name_gets_a_hint() -> None:
    assert str(OptionError.unknown("raduis", ["radius", "beta"])) == "raduis is no option; did you mean radius?"
    assert str(OptionError.unknown("zzz", ["radius", "beta"])) == "zzz is no option; known: radius, beta"
