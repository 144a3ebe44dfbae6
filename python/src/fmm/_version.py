"""The version of FMM. `./fmm --version` and tools/package read it from this file."""
__version__ = "0.9.0"
