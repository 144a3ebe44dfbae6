"""`python3 -m fmm NAME ARGUMENTS` runs a command of the package."""
import sys

from .commands import main

sys.exit(main())
