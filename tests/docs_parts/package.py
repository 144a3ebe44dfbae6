"""What blocks of pages need: the Python package, which Python can run it, other tools; and a session of Python for a page."""
import functools
import json
import os
import re
import shutil
import subprocess
import sys
import threading
from contextlib import contextmanager

from fork_parts.forker import Forker

# What most commands import.
MODULES = ("fiona", "fmm.commands.network", "fmm.commands.positions", "fmm.commands.run", "fmm.commands.tables", "fmm.fleet",
           "fmm.map", "fmm.map.margins", "fmm.map.page", "fmm.matches", "fmm.matching", "fmm._exports", "fmm._map_files",
           "fmm._osm.network", "fmm._picture", "fmm._runs", "matplotlib.backends.backend_agg", "osmium", "PIL.TiffImagePlugin")
TOOLS = ("sqlite3", "ogrinfo", "ogr2ogr", "osmium")
LIBRARIES = "geopandas gpxpy numpy osmium pandas pyproj shapely tqdm".split()
SESSION = """
import contextlib, io, json, sys, traceback
space = {"__name__": "__main__"}
for line in sys.stdin:
    output, why = io.StringIO(), None
    try:
        with contextlib.redirect_stdout(output):
            exec(compile(json.loads(line), "block", "exec"), space)
    except BaseException:
        why = traceback.format_exc()
    sys.__stdout__.write(json.dumps([output.getvalue(), why]) + "\\n")
    sys.__stdout__.flush()
"""


@functools.lru_cache(maxsize=None)
def python():
    """A Python that has the libraries of the package, or None."""
    test = f"import importlib.util as u, sys; sys.exit(sys.version_info < (3, 9) or not all(map(u.find_spec, {LIBRARIES})))"
    for name in [os.environ.get("FMM_PYTHON"), "/usr/bin/python3", sys.executable]:
        try:
            if name and subprocess.run([name, "-c", test], stderr=subprocess.DEVNULL, check=False).returncode == 0:
                return name
        except OSError:
            pass
    return None


@functools.lru_cache(maxsize=None)
def commands(top):
    """The names of the commands of the package."""
    folder = os.path.join(top, "python", "src", "fmm", "commands")
    names = os.listdir(folder) if os.path.isdir(folder) else []
    return {name[:-3] for name in names if re.fullmatch(r"[a-z]\w*\.py", name)}


def lacking(top, language, text):
    """What a block needs and this machine lacks, or None."""
    needs = language == "python" or any(name in commands(top) for name in re.findall(r"\./fmm (\w+)", text))
    if needs and not python():
        return "no Python has the libraries of the package"
    missing = [name for name in TOOLS if re.search(rf"^\s*{name} ", text, re.M) and not shutil.which(name)]
    return f"there is no {missing[0]}" if missing else None


@contextmanager
def forked_python(top):
    """A program that runs commands of the package as Python does, in forks of a process that has its modules. None if no Python
    has the libraries, or if there is no package."""
    if not commands(top) or not python():
        yield None
        return
    forker = Forker(python(), os.path.join(top, "python", "src"), MODULES)
    try:
        yield str(forker.python)
    finally:
        forker.close()


class Session:
    """Python in the folder of a page. The blocks of a page share their names."""

    def __init__(self, room, seconds):
        self.seconds = seconds
        source = os.path.realpath(os.path.join(room, "python", "src"))  # where compiled modules are kept for it
        self.process = subprocess.Popen([python(), "-c", SESSION], cwd=room, stdin=subprocess.PIPE, stdout=subprocess.PIPE,
                                        stderr=subprocess.DEVNULL, text=True, env={
                                            **os.environ, "LC_ALL": "C.UTF-8", "PYTHONDONTWRITEBYTECODE": "1",
                                            "PYTHONPATH": source})

    def run(self, text):
        """The standard output of a block, and why it failed, or None."""
        timer = threading.Timer(self.seconds, self.process.kill)
        timer.start()
        try:
            self.process.stdin.write(json.dumps(text) + "\n")
            self.process.stdin.flush()
            answer = self.process.stdout.readline()
        except BrokenPipeError:
            answer = ""
        finally:
            timer.cancel()
        if not answer:
            return "", f"Python ended, or had not ended the block after {self.seconds} seconds"
        output, why = json.loads(answer)
        return output, why and f"it failed: {why.strip()[-600:]}"

    def close(self):
        self.process.kill()
        self.process.communicate()
