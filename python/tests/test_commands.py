"""The dispatch of commands, and what every command does with its words and its errors."""
from __future__ import annotations

import subprocess
import sys
from pathlib import Path

import pytest

import fmm
from fmm import commands
from fmm._libraries import OPTIONAL, REQUIRED, explained
from fmm.commands._parser import Parser
from fmm.errors import InputError, MissingLibraryError, OptionError


def test_import_is_lazy(top: Path) -> None:
    """`import fmm` and the help of all commands import no library."""
    code = ("import sys, fmm; from fmm import commands; commands.usage(); "
            f"sys.exit(', '.join(sorted(set(sys.modules) & {set(REQUIRED) | set(OPTIONAL)!r})) or 0)")
    done = subprocess.run([sys.executable, "-c", code], cwd=top / "python" / "src", capture_output=True, text=True)
    assert (done.returncode, done.stderr) == (0, "")


def test_every_public_name_is_there() -> None:
    assert sorted(fmm.__all__) == sorted(["__version__", *fmm._MODULES])
    for name in fmm.__all__:
        assert getattr(fmm, name) is not None


def test_unknown_name() -> None:
    with pytest.raises(AttributeError, match="module 'fmm' has no attribute 'mach'"):
        fmm.mach


def test_each_command_is_described() -> None:
    for name in commands.names():
        text = commands.description(name)
        assert 10 < len(text) <= 80, f"{name}: {text}"
        assert text in commands.usage()


def test_unknown_command(capsys: pytest.CaptureFixture[str], monkeypatch: pytest.MonkeyPatch) -> None:
    monkeypatch.setattr(commands, "names", lambda: ["network", "run"])
    assert commands.main(["rnu"]) == 2
    assert capsys.readouterr().err.startswith("fmm: there is no command rnu; did you mean run?")


def test_no_words(capsys: pytest.CaptureFixture[str]) -> None:
    assert commands.main([]) == 2
    assert commands.main(["--version"]) == 0
    assert capsys.readouterr().out == f"fmm {fmm.__version__}\n"


def test_unknown_option() -> None:
    parser = Parser("run", "Runs.")
    parser.add_argument("--radius")
    with pytest.raises(OptionError, match="--raduis is no option; did you mean --radius?"):
        parser.parse_args(["--raduis", "3"])
    with pytest.raises(OptionError):
        parser.parse_args(["--rad", "3"])


def test_missing_library() -> None:
    with pytest.raises(MissingLibraryError, match="no library matplotlib; on Debian: apt-get install python3-matplotlib"):
        with explained():
            raise ModuleNotFoundError("No module named 'matplotlib'", name="matplotlib.pyplot")
    with pytest.raises(ModuleNotFoundError):
        with explained():
            raise ModuleNotFoundError("No module named 'other'", name="other")


def test_list_of_packages(top: Path) -> None:
    """The list that tests/setup and tools/package use has the libraries of the package."""
    groups: dict[str, set[str]] = {}
    for line in (top / "packaging" / "debian-packages").read_text().splitlines():
        if line and not line.startswith("#"):
            group, name, use = line.split(maxsplit=2)
            groups.setdefault(group, set()).add(name)
    assert groups["python"] == {"python3", *REQUIRED.values()}
    assert groups["functions"] == {*OPTIONAL.values(), "python3-httptools", "python3-uvloop"}  # uvicorn takes the last two itself


class Raising:
    """A command that raises what it is given."""

    def __init__(self, fault: BaseException) -> None:
        self.fault = fault

    def main(self, words: list[str]) -> int:
        raise self.fault


@pytest.mark.parametrize("fault, status, line", [
    (InputError("wrong", "a\nb.csv", 3), 1, "fmm run: a b.csv line 3: wrong\n"),
    (OptionError("bad"), 2, "fmm run: bad\n"),
    (KeyboardInterrupt(), 130, "fmm run: interrupted\n"),
    (MemoryError(), 1, "fmm run: out of memory\n"),
    (OSError(28, "No space left on device", "out.csv"), 1, "fmm run: out.csv: No space left on device\n"),
    (commands.Stopped(15), 143, ""),
    (commands.Stopped(1), 129, ""),
])
def test_errors_are_one_line(fault: BaseException, status: int, line: str, capfd: pytest.CaptureFixture[str],
                             monkeypatch: pytest.MonkeyPatch) -> None:
    monkeypatch.setattr(commands.importlib, "import_module", lambda name: Raising(fault))
    assert commands.perform("run", []) == status
    assert capfd.readouterr().err == line


SLOW = """
import atexit, os, signal, sys, types
from fmm import commands
signal.signal(signal.SIGINT, signal.default_int_handler)
def main(words):
    try:
        os.kill(os.getpid(), signal.SIGINT)
    finally:
        for number in commands.SIGNALS:
            os.kill(os.getpid(), number)
        print("in order", flush=True)
sys.modules["fmm.commands.slow"] = types.SimpleNamespace(main=main)
atexit.register(lambda: os.kill(os.getpid(), signal.SIGINT))
sys.exit(commands.perform("slow", []))
"""


def test_further_interruptions_change_nothing(top: Path) -> None:
    """The second and third Ctrl-C come while the command ends in order, and a fourth one after it."""
    done = subprocess.run([sys.executable, "-c", SLOW], cwd=top / "python" / "src", capture_output=True, text=True)
    assert (done.returncode, done.stdout, done.stderr) == (130, "in order\n", "fmm slow: interrupted\n")


def test_an_ignored_signal_stays_ignored(top: Path) -> None:
    """A command under nohup goes on when the terminal is closed."""
    code = ("import os, signal, sys, types; from fmm import commands; "
            "sys.modules['fmm.commands.slow'] = types.SimpleNamespace(main=lambda words: os.kill(os.getpid(), signal.SIGHUP)); "
            "sys.exit(commands.perform('slow', []))")
    assert subprocess.run(["nohup", sys.executable, "-c", code], cwd=top / "python" / "src").returncode == 0


def test_standard_error_that_is_full(top: Path) -> None:
    """A full or closed standard error changes no status."""
    for shell in ("2>/dev/full", "2>&-"):
        done = subprocess.run(["sh", "-c", f'"$0" -m fmm nothing {shell}', sys.executable], cwd=top / "python" / "src")
        assert done.returncode == 2
