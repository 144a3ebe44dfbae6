"""Options in metres and seconds."""
from __future__ import annotations

from typing import Any

import pytest

from fmm.errors import OptionError
from fmm.options import Options


def test_arguments_are_in_centimetres() -> None:
    words = Options(radius=50, sigma=12.345, back=20, gap=300, thin=40, workers=3).arguments()
    assert words == ["--k", "8", "--radius", "5000", "--sigma", "1235", "--beta", "1000", "--bound", "300000", "--back", "2000",
                     "--workers", "3"]


def test_a_similar_name_is_offered() -> None:
    with pytest.raises(OptionError, match="^raduis is no option; did you mean radius?"):
        Options.of(raduis=5)


@pytest.mark.parametrize("name, value, message", [
    ("k", 0, "k is from 1 to 32, not 0"), ("k", 2.5, "k is a whole number, not 2.5"), ("gap", -1, "gap is from 0 to 4.29497e"),
    ("radius", 1001, "radius is from 0.01 to 1000 metres, not 1001"), ("sigma", float("nan"), "sigma is from"),
    ("back", "far", "back is a number from 0 to 1000"),
    ("beta", True, "beta is a number"), ("bound", None, "bound is a number"), ("workers", 65, "workers is from 1 to 64, not 65"),
    ("back", "1_0", "back is a number")])
def test_values_out_of_range(name: str, value: Any, message: str) -> None:
    with pytest.raises(OptionError, match=message):
        Options.of(**{name: value})


def test_some_others() -> None:
    options = Options.of(back="20", gap=None).but(k=3.0)
    assert (options.back, options.gap, options.k, options.radius) == (20.0, None, 3, 100.0) and isinstance(options.k, int)
