"""Runs the command fmm, with its messages in the log of an algorithm, until it ends or the algorithm is cancelled."""
from __future__ import annotations

import os
import select
import shutil
import subprocess
from pathlib import Path
from typing import Any

from qgis.core import QgsProcessingException

TICK = 0.2  # seconds between two looks at whether the algorithm is cancelled
PROGRESS = "progress: "
PHASES = {"match": (10, 60), "margins": (60, 95)}  # of a match, with what the bar shows at their begin and end


def command() -> str:
    """The path of fmm: that of the checkout to which this folder belongs, or the first on the path."""
    own = Path(__file__).resolve().parents[3] / "fmm"
    found = str(own) if own.is_file() and os.access(own, os.X_OK) else shutil.which("fmm")
    if found is None:
        raise QgsProcessingException("there is no command fmm: install the Debian packages fmm and python3-fmm")
    return found


def run(words: list[str], feedback: Any) -> None:
    """Runs `fmm WORDS`. QgsProcessingException: it failed, with its message, or it was cancelled."""
    feedback.pushCommandInfo(" ".join(["fmm", *words]))
    environment = {name: value for name, value in os.environ.items() if name not in ("PYTHONHOME", "PYTHONPATH")}
    environment["FMM_PROGRESS"] = "lines"
    child = subprocess.Popen([command(), *words], stdin=subprocess.DEVNULL, stdout=subprocess.PIPE, stderr=subprocess.STDOUT,
                             env=environment)
    assert child.stdout
    said = b""
    try:
        while True:
            if feedback.isCanceled():
                raise QgsProcessingException("cancelled")
            if not select.select([child.stdout], [], [], TICK)[0]:
                continue
            block = os.read(child.stdout.fileno(), 1 << 16)
            if not block:
                break
            *lines, said = (said + block).split(b"\n")
            for line in lines:
                show(line, feedback)
        show(said, feedback)
    finally:
        if child.poll() is None:
            child.terminate()
        status = child.wait()
        child.stdout.close()
    if status != 0:
        raise QgsProcessingException(f"fmm {words[0]} ended with status {status}; the log has its message")


def show(line: bytes, feedback: Any) -> None:
    """A line in the log, or a step of the progress. Faults and warnings stand out."""
    text = line.decode(errors="replace").rstrip()
    if text.startswith(PROGRESS):
        what, _, share = text[len(PROGRESS):].rpartition(" ")
        feedback.setProgressText(what if share.isdigit() else text[len(PROGRESS):])
        if what in PHASES and share.isdigit():
            begin, end = PHASES[what]
            feedback.setProgress(begin + (end - begin) * int(share) / 100)
    elif text.startswith("fmm "):
        feedback.reportError(text)
    elif text.startswith("warning:"):
        feedback.pushWarning(text)
    elif text:
        feedback.pushInfo(text)
